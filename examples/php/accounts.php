<?php // Accounts over PDO, to copy: docs/PHP.md says how to use them.
const COSTS = ['memory_cost' => 65536, 'time_cost' => 3, 'threads' => 4];
const TURNS = 8; // how often the row may have another record than the checked one

/** Returns the id and the record of a name, or, with 'id' instead of 'name', of an id; or null. */
function read(PDO $db, string|int $whose, string $column = 'name'): ?array
{
    $select = $db->prepare("SELECT id, record FROM users WHERE $column = ? AND record IS NOT NULL");
    $select->execute([$whose]);
    return $select->fetchAll(PDO::FETCH_NUM)[0] ?? null;
}

/** Whether the record is one of the password; without a record the answer takes as long. */
function judge(#[SensitiveParameter] string $password, ?string $record): bool
{
    if (password_get_info((string) $record)['algo'] === null) {
        password_hash($password, PASSWORD_ARGON2ID, COSTS);
        return false;
    }
    return password_verify($password, $record);
}

/** Replaces the user's record by one of the password, and returns the user; null if the row has another record. */
function put(PDO $db, array $user, #[SensitiveParameter] string $password): ?array
{
    $record = password_hash($password, PASSWORD_ARGON2ID, COSTS);
    $update = $db->prepare('UPDATE users SET record = ? WHERE id = ? AND record = ?');
    $update->execute([$record, ...$user]);
    return $update->rowCount() === 1 ? [$user[0], $record] : null;
}

/** Returns the user if the password is right, and rehashes a record with old costs. */
function login(PDO $db, string $name, #[SensitiveParameter] string $password): ?array
{
    $user = read($db, $name);
    for ($turn = 0; $turn < TURNS; $turn++) {
        if (!judge($password, $user[1] ?? null)) {
            return null;
        }
        $is_old = password_needs_rehash($user[1], PASSWORD_ARGON2ID, COSTS);
        $now = $is_old ? put($db, $user, $password) : read($db, $user[0], 'id');
        if ($now !== null && ($is_old || $now === $user)) {
            return $now;
        }
        $user = read($db, $user[0], 'id');
    }
    return null;
}

/** Changes the password if the old one is right, and returns the user. */
function change(PDO $db, int $id, #[SensitiveParameter] string $old, #[SensitiveParameter] string $new): ?array
{
    for ($turn = 0; $turn < TURNS; $turn++) {
        $user = read($db, $id, 'id');
        if (!judge($old, $user[1] ?? null)) {
            return null;
        }
        if ($now = put($db, $user, $new)) {
            return $now;
        }
    }
    return null;
}

/** Returns a session's value for a user: put it into $_SESSION after session_regenerate_id(true). */
function session(array $user): array
{
    return ['id' => $user[0], 'of' => hash('sha256', $user[1])];
}

/** Returns the id whose session this is, or null once another record has replaced the session's. */
function who(PDO $db, ?array $session): ?int
{
    $user = $session ? read($db, $session['id'], 'id') : null;
    return $user && hash_equals($session['of'], hash('sha256', $user[1])) ? $user[0] : null;
}

/** Returns a link's token for a reset, which ends at a time, and with the record; the key is the service's own. */
function reset_token(array $user, #[SensitiveParameter] string $key, int $until): string
{
    return $until . '.' . hash_hmac('sha256', "reset $until $user[0] $user[1]", $key);
}

/** Sets the new password if the token is in time and of this user's record, and returns the user. */
function reset_password(
    PDO $db, int $id, #[SensitiveParameter] string $key, string $token, #[SensitiveParameter] string $new
): ?array {
    // The whole form: (int) '1795965680.9e1..' is another number, since PHP reads a float there.
    if (!preg_match('/^([1-9][0-9]{0,17})\.[0-9a-f]{64}$/D', $token, $parts)) {
        return null;
    }
    $until = (int) $parts[1];
    $user = read($db, $id, 'id');
    if ($user === null || $until < time() || !hash_equals(reset_token($user, $key, $until), $token)) {
        return null;
    }
    return put($db, $user, $new);
}
