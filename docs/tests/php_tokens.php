<?php
// Runs the reset of a password in docs/PHP.md's plain code with the lowest costs and hundreds of
// tokens: php php_tokens.php CODE.
require __DIR__ . '/php_check.php';
$cheap = "const COSTS = ['memory_cost' => 64, 'time_cost' => 1, 'threads' => 1];";
$code = preg_replace('/^const COSTS = .*;$/m', $cheap, file_get_contents($argv[1]), -1, $count);
check($count === 1, 'the costs');
eval("?>$code");

$db = new PDO('sqlite::memory:');
$db->exec('CREATE TABLE users (id INTEGER PRIMARY KEY, name TEXT UNIQUE, record TEXT)');
$db->exec("INSERT INTO users (name) VALUES ('ann')");

function record(PDO $db): string
{
    return $db->query("SELECT record FROM users WHERE name = 'ann'")->fetchColumn();
}

// Two hundred tokens of one record, so that each run has the same hashes. If PHP casts whole tokens
// to numbers, a hundred of them become a float with an exponent, such as 4000000001.9e12.
$record = '$argon2id$v=19$m=64,t=1,p=1$c29tZXNhbHQ$3j0+S6gGV20Zdm+eoztdkLUvOKbucBG7gA8asDqV4P8';
$restore = $db->prepare('UPDATE users SET record = ? WHERE id = 1');
$tokens = [true => [], false => []];
for ($until = 4000000000; count($tokens[true]) < 100 || count($tokens[false]) < 100; $until++) {
    $token = reset_token([1, $record], 'key', $until);
    $is_float = (bool) preg_match('/^[0-9]+\.[0-9]*e[0-9]/', $token);
    if (count($tokens[$is_float]) < 100) {
        $tokens[$is_float][] = $token;
    }
}
foreach (array_merge(...$tokens) as $token) {
    $restore->execute([$record]);
    check(reset_password($db, 1, 'key', $token, 'reset') === [1, record($db)], "a token is accepted: $token");
    check(record($db) !== $record, 'and the record is another one');
}

$restore->execute([$record]);
foreach ([$tokens[true][0], $tokens[false][0]] as $token) {
    [$until, $hash] = explode('.', $token);
    $altered = [
        $until, "$until.", ".$hash", $hash, "$until$hash", "$until..$hash", "$until,$hash", "$until $hash",
        "0.$hash", "-$until.$hash", "+$until.$hash", " $until.$hash", "0$until.$hash", "$until.0.$hash",
        "$until.0$hash", "$until.$hash.", "$until.$hash\n", "$until.$hash\0", "$until. $hash", "\n$until.$hash",
        ($until + 1) . ".$hash", ($until - 1) . ".$hash", "{$until}e0.$hash", '0x' . dechex((int) $until) . ".$hash",
        '4e9.' . $hash, "9$until.$hash", str_repeat('9', 18) . ".$hash", str_repeat('9', 40) . ".$hash",
        "$until." . strtoupper($hash), "$until." . substr($hash, 1), "$until." . str_repeat('0', 64),
    ];
    for ($at = 0; $at < strlen($token); $at++) {
        foreach (['0', '1', 'a', 'e', '.', ' ', "\0"] as $letter) {
            $altered[] = substr_replace($token, $letter, $at, 1);
        }
    }
    foreach ($altered as $given) {
        if ($given !== $token) {
            check(reset_password($db, 1, 'key', $given, 'thief') === null, 'an altered token: ' . json_encode($given));
        }
    }
}
check(record($db) === $record, 'which changes nothing');
echo "PHP: each of two hundred tokens resets the password, and no altered one\n";
