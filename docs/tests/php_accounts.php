<?php
// Runs docs/PHP.md's plain code: php php_accounts.php CODE, with a change between check and UPDATE.
require __DIR__ . '/php_check.php';
require $argv[1];

/** Runs a function once, before the next UPDATE or after the next read of rows. */
class Between extends PDO
{
    public ?Closure $before = null;
    public bool $compares = true;

    public function prepare(string $query, array $options = []): PDOStatement|false
    {
        if (str_starts_with($query, 'UPDATE')) {
            once($this->before);
        }
        if (!$this->compares) {
            $query = str_replace('id = ? AND record = ?', 'id = ? AND ? IS NOT NULL', $query);
        }
        return parent::prepare($query, $options);
    }
}

class Rows extends PDOStatement
{
    public static ?Closure $after = null;

    protected function __construct()
    {
    }

    public function fetchAll(int $mode = PDO::FETCH_DEFAULT, mixed ...$given): array
    {
        $rows = parent::fetchAll($mode, ...$given);
        $this->closeCursor();
        once(self::$after);
        return $rows;
    }
}

function fresh(string $password, array $costs): Between
{
    $db = new Between('sqlite::memory:', null, null, [PDO::ATTR_STATEMENT_CLASS => ['Rows']]);
    $db->exec('CREATE TABLE users (id INTEGER PRIMARY KEY, name TEXT UNIQUE, record TEXT)');
    $insert = $db->prepare('INSERT INTO users (name, record) VALUES (?, ?)');
    $record = password_hash($password, PASSWORD_ARGON2ID, $costs);
    foreach (['ann' => $record, 'none' => null, 'empty' => '', 'star' => '*'] as $name => $record) {
        $insert->execute([$name, $record]);
    }
    return $db;
}

function record(PDO $db): string
{
    return $db->query("SELECT record FROM users WHERE name = 'ann'")->fetchColumn();
}

function is_in(PDO $db, ?array $user): bool
{
    return $user !== null && who($db, session($user)) === 1;
}

$old = ['memory_cost' => 64, 'time_cost' => 1, 'threads' => 1];
check(COSTS === ['memory_cost' => 65536, 'time_cost' => 3, 'threads' => 4], 'the costs');

$db = fresh('secret', $old);
check(login($db, 'ann', 'guess') === null && password_get_info(record($db))['options'] == $old, 'a guess');
check(login($db, 'ann', 'secret') === [1, record($db)], 'a login');
check(password_get_info(record($db))['options'] == COSTS, 'its upgrade');
$stands = record($db);
check(login($db, 'ann', 'secret') === [1, $stands] && record($db) === $stands, 'once');
foreach (['none', 'nobody', '', 'empty', 'star'] as $name) {
    check(login($db, $name, 'secret') === null, "who has no record: $name");
}
foreach ([2, 3, 4, 99] as $id) {
    check(change($db, $id, 'secret', 'x') === null && change($db, $id, '', 'x') === null, "a change of $id");
}
check(change($db, 1, 'guess', 'new') === null && change($db, 1, 'secret', 'new') === [1, record($db)], 'a change');
check(!login($db, 'ann', 'secret') && login($db, 'ann', 'new'), 'after it');

// An older service's records of bcrypt move at a login. A locked user can't log in, and keeps the record.
$bcrypt = password_hash('secret', PASSWORD_BCRYPT, ['cost' => 4]);
$locked = ['lok' => "!$bcrypt", 'star' => "*$bcrypt", 'cut' => substr($bcrypt, 0, -9), 'nologin' => 'nologin'];
$insert = $db->prepare('INSERT OR REPLACE INTO users (name, record) VALUES (?, ?)');
foreach (['bea' => $bcrypt, ...$locked] as $name => $record) {
    $insert->execute([$name, $record]);
}
foreach (["bea\n", "bea\0", 'BEA', str_repeat('b', 1100)] as $name) {
    check(login($db, $name, 'secret') === null, 'a name of nobody');
}
foreach (['guess', '', "secret\n", str_repeat('x', 1100), $bcrypt] as $password) {
    check(login($db, 'bea', $password) === null, 'another password at bcrypt');
}
foreach ($locked as $name => $record) {
    check(login($db, $name, 'secret') === null && read($db, $name)[1] === $record, "who is locked: $name");
}
check(read($db, 'bea')[1] === $bcrypt && login($db, 'bea', 'secret') === read($db, 'bea'), 'a login by bcrypt');
check(password_get_info(read($db, 'bea')[1])['options'] == COSTS, 'its record moves');
check(login($db, 'bea', 'secret') && !login($db, 'bea', 'guess'), 'and counts then');

// A name without a record costs a hash: the test compares the least processor time of three runs.
$spend = function (string $name) use ($db): float {
    for ($least = INF, $turn = 0; $turn < 3; $turn++) {
        $before = getrusage();
        login($db, $name, 'guess');
        $after = getrusage();
        $spent = ($after['ru_utime.tv_sec'] - $before['ru_utime.tv_sec']) * 1e6
            + $after['ru_utime.tv_usec'] - $before['ru_utime.tv_usec'];
        $least = min($least, $spent);
    }
    return $least;
};
$wrong = $spend('ann');
foreach (['none', 'nobody', 'empty', 'star'] as $name) {
    $spent = $spend($name);
    check($spent > $wrong * 0.4 && $spent < $wrong * 2.5, "$name takes as long: $spent, $wrong");
}

foreach ([true, false] as $compares) {
    $db = fresh('stolen', $old);
    $db->compares = $compares;
    $db->before = fn () => check(change($db, 1, 'stolen', 'new') !== null, 'the change');
    $answer = login($db, 'ann', 'stolen');
    $after = [(bool) $answer, (bool) login($db, 'ann', 'stolen'), (bool) login($db, 'ann', 'new')];
    check($after === ($compares ? [false, false, true] : [true, true, false]), 'the race');
}

$db = fresh('stolen', COSTS); // no upgrade: the login reads before the change, and answers after it
Rows::$after = fn () => check(change($db, 1, 'stolen', 'new') !== null, 'the change');
check(login($db, 'ann', 'stolen') === null, 'a login is looked at again');

$db = fresh('old', $old);
$reset = password_hash('reset', PASSWORD_ARGON2ID, $old);
$db->before = fn () => $db->exec("UPDATE users SET record = '$reset' WHERE id = 1");
check(change($db, 1, 'old', 'new') === null && record($db) === $reset, 'a change undoes no reset');
$again = password_hash('reset', PASSWORD_ARGON2ID, $old);
$db->before = fn () => $db->exec("UPDATE users SET record = '$again' WHERE id = 1");
check(login($db, 'ann', 'reset') === [1, record($db)], 'a login whose upgrade is lost goes on');
$db->before = fn () => $db->exec('DELETE FROM users WHERE id = 1');
check(change($db, 1, 'reset', 'new') === null && login($db, 'ann', 'reset') === null, 'who is gone');

$db = fresh('old', COSTS);
$one = login($db, 'ann', 'old');
$two = login($db, 'ann', 'old');
check(is_in($db, $one) && is_in($db, $two) && who($db, null) === null, 'two sessions');
check(who($db, ['id' => 1, 'of' => '']) === null && who($db, ['id' => 2] + session($one)) === null, 'no session');
check(!str_contains(json_encode(session($one)), '$argon2'), 'a session has no record');
$one = change($db, 1, 'old', 'new');
check(is_in($db, $one) && !is_in($db, $two), 'a change ends the other sessions');

$user = read($db, 'ann');
$token = reset_token($user, 'key', time() + 60);
foreach ([
    [1, 'another key', $token], [2, 'key', $token], [1, 'key', ''], [1, 'key', '0.'],
    [1, 'key', reset_token($user, 'key', time() - 1)],
    [1, 'key', (time() + 600) . strstr($token, '.')],
    [1, 'key', $token . '0'], [1, 'key', substr($token, 0, -1)],
] as [$id, $key, $given]) {
    check(reset_password($db, $id, $key, $given, 'thief') === null, "no token: $given");
}
check(reset_password($db, 1, 'key', $token, 'reset') !== null && login($db, 'ann', 'reset') !== null, 'a reset');
check(reset_password($db, 1, 'key', $token, 'again') === null && !is_in($db, $one), 'once, and it ends sessions');
$token = reset_token(read($db, 'ann'), 'key', time() + 600);
$db->before = fn () => check(change($db, 1, 'reset', 'mine') !== null, 'the change');
check(reset_password($db, 1, 'key', $token, 'late') === null && login($db, 'ann', 'mine') !== null, 'it compares');
echo "plain PHP: all right, and without the condition the change is undone\n";
