<?php
// Runs docs/PHP.md's upgrader for Symfony, called as Symfony calls it: php php_symfony.php CODE.
error_reporting(E_ALL & ~E_DEPRECATED);
foreach (['Security/Core', 'Security/Http', 'PasswordHasher', 'EventDispatcher', 'HttpFoundation'] as $part) {
    require_once "/usr/share/php/Symfony/Component/$part/autoload.php";
}
require __DIR__ . '/php_check.php';
require $argv[1];

use App\Security\CompareAndSetUpgrader;
use Symfony\Component\HttpFoundation\Request;
use Symfony\Component\PasswordHasher\Hasher\NativePasswordHasher;
use Symfony\Component\PasswordHasher\Hasher\PasswordHasherFactory;
use Symfony\Component\Security\Core\Authentication\Token\UsernamePasswordToken;
use Symfony\Component\Security\Core\User\PasswordAuthenticatedUserInterface;
use Symfony\Component\Security\Core\User\UserInterface;
use Symfony\Component\Security\Http\Authenticator\AuthenticatorInterface;
use Symfony\Component\Security\Http\Authenticator\FormLoginAuthenticator;
use Symfony\Component\Security\Http\Authenticator\Passport\Badge\PasswordUpgradeBadge;
use Symfony\Component\Security\Http\Authenticator\Passport\Badge\UserBadge;
use Symfony\Component\Security\Http\Authenticator\Passport\Credentials\PasswordCredentials;
use Symfony\Component\Security\Http\Authenticator\Passport\Passport;
use Symfony\Component\Security\Http\Event\CheckPassportEvent;
use Symfony\Component\Security\Http\Event\LoginSuccessEvent;
use Symfony\Component\Security\Http\EventListener\CheckCredentialsListener;
use Symfony\Component\Security\Http\EventListener\PasswordMigratingListener;

class User implements UserInterface, PasswordAuthenticatedUserInterface
{
    public function __construct(private int $id, private string $password)
    {
    }

    public function getId(): int
    {
        return $this->id;
    }

    public function getPassword(): ?string
    {
        return $this->password;
    }

    public function setPassword(string $password): void
    {
        $this->password = $password;
    }

    public function getRoles(): array
    {
        return [];
    }

    public function getSalt(): ?string
    {
        return null;
    }

    public function eraseCredentials(): void
    {
    }

    public function getUsername(): string
    {
        return 'ann';
    }

    public function getUserIdentifier(): string
    {
        return 'ann';
    }
}

function record(string $password, int $memory): string
{
    return password_hash($password, PASSWORD_ARGON2ID, ['memory_cost' => $memory, 'time_cost' => 3, 'threads' => 1]);
}

$db = new PDO('sqlite::memory:');
$db->exec('CREATE TABLE users (id INTEGER PRIMARY KEY, password TEXT)');
$db->exec('INSERT INTO users (id, password) VALUES (1, \'\'), (2, \'another\')');
$set = fn (string $record) => $db->prepare('UPDATE users SET password = ? WHERE id = 1')->execute([$record]);
$stands = fn (int $id = 1): string => $db->query("SELECT password FROM users WHERE id = $id")->fetchColumn();
$hashers = new PasswordHasherFactory(
    [User::class => new NativePasswordHasher(3, 128 * 1024, null, PASSWORD_ARGON2ID)]
);
$upgrader = new CompareAndSetUpgrader($db);

/** Logs in like Symfony's authenticator manager, and returns the user as the session keeps her. */
$login = function (string $password, ?Closure $between = null) use ($hashers, $upgrader, $stands): ?User {
    $user = new User(1, $stands());
    $badges = [new PasswordUpgradeBadge($password, $upgrader)];
    $credentials = new PasswordCredentials($password);
    $passport = new Passport(new UserBadge('ann', fn () => $user), $credentials, $badges);
    $authenticator = (new ReflectionClass(FormLoginAuthenticator::class))->newInstanceWithoutConstructor();
    try {
        $event = new CheckPassportEvent($authenticator, $passport);
        (new CheckCredentialsListener($hashers))->checkPassport($event);
    } catch (Exception) {
        return null;
    }
    if ($between) {
        $between();
    }
    $token = new UsernamePasswordToken($user, 'main', []);
    $success = new LoginSuccessEvent($authenticator, $passport, $token, new Request(), null, 'main');
    (new PasswordMigratingListener($hashers))->onLoginSuccess($success);
    return $user;
};

$set(record('secret', 64));
check($login('guess') === null, 'a guess');
$user = $login('secret');
check($user?->getPassword() === $stands() && str_contains($stands(), 'm=128,'), 'a login upgrades');
check($login('secret')->getPassword() === $stands() && $user->getPassword() === $stands(), 'once');
check($stands(2) === 'another', 'one row');

$stolen = record('stolen', 64);
$set($stolen);
$new = record('new', 64);
$user = $login('stolen', fn () => $set($new));
check($stands() === $new, 'the race: the change stays');
check($user->getPassword() === $stolen, 'and the session that began with the old record ends with it');
check($login('stolen') === null && $login('new') !== null, 'after it');
echo "Symfony: all right\n";
