<?php
// Runs docs/PHP.md's provider for Laravel, under Laravel's guard: php php_laravel.php CODE.
error_reporting(E_ALL & ~E_DEPRECATED);
foreach (['Database', 'Auth', 'Hashing', 'Session', 'Http', 'Cookie'] as $part) {
    require_once "/usr/share/php/Illuminate/$part/autoload.php";
}
require __DIR__ . '/php_check.php';
require $argv[1];

use App\Auth\CompareAndSetUserProvider;
use Illuminate\Auth\Authenticatable;
use Illuminate\Auth\AuthenticationException;
use Illuminate\Auth\SessionGuard;
use Illuminate\Contracts\Auth\Authenticatable as Contract;
use Illuminate\Contracts\Auth\Factory;
use Illuminate\Database\Capsule\Manager;
use Illuminate\Database\Eloquent\Model;
use Illuminate\Hashing\Argon2IdHasher;
use Illuminate\Http\Request;
use Illuminate\Session\ArraySessionHandler;
use Illuminate\Session\Middleware\AuthenticateSession;
use Illuminate\Session\Store;
use Illuminate\Support\Timebox;

class User extends Model implements Contract
{
    use Authenticatable;
    public $timestamps = false;
    protected $guarded = [];
}

class Seen extends User
{
    protected $table = 'users';

    protected static function booted()
    {
        static::addGlobalScope('seen', fn ($query) => $query->where('hidden', 0));
    }
}

/** Runs a function once after the next check of a password, and counts hashes. */
class Between extends Argon2IdHasher
{
    public ?Closure $after = null;
    public ?Closure $making = null;
    public int $hashes = 0;
    public int $outside = 0;

    public function check($value, $hashedValue, array $options = [])
    {
        $right = parent::check($value, $hashedValue, $options);
        if (password_get_info($hashedValue)['algo'] !== null) {
            $this->count();
        }
        once($this->after);
        return $right;
    }

    public function make($value, array $options = [])
    {
        $this->count();
        once($this->making);
        return parent::make($value, $options);
    }

    private function count(): void
    {
        $this->hashes++;
        $this->outside += Box::$open ? 0 : 1;
    }
}

/** Laravel's time box, which doesn't wait here, and shows whether it is open. */
class Box extends Timebox
{
    public static bool $open = false;

    public function call(callable $callback, int $microseconds)
    {
        self::$open = true;
        try {
            return $callback($this);
        } finally {
            self::$open = false;
        }
    }
}

/** The part of Laravel's auth that the middleware needs: one guard. */
class OneGuard implements Factory
{
    public function __construct(public SessionGuard $guard)
    {
    }

    public function guard($name = null)
    {
        return $this->guard;
    }

    public function shouldUse($name)
    {
    }

    public function __call($name, $given)
    {
        return $name === 'getDefaultDriver' ? 'web' : $this->guard->$name(...$given);
    }
}

$capsule = new Manager();
$capsule->addConnection(['driver' => 'sqlite', 'database' => ':memory:']);
$capsule->bootEloquent();
$capsule->getConnection()->statement(
    'CREATE TABLE users (id INTEGER PRIMARY KEY, name TEXT, password TEXT, remember_token TEXT, hidden INTEGER DEFAULT 0)'
);
$hasher = new Between(['memory' => 128, 'time' => 1, 'threads' => 1]);
$cheap = new Argon2IdHasher(['memory' => 64, 'time' => 1, 'threads' => 1]);
$provider = new CompareAndSetUserProvider($hasher, User::class);
$handler = new ArraySessionHandler(10);
$guard = function (?Store $session = null) use ($provider, $handler): SessionGuard {
    $session ??= new Store('s', $handler);
    $guard = new SessionGuard('web', $provider, $session, new Request(), new Box());
    $guard->setCookieJar(new Illuminate\Cookie\CookieJar());
    return $guard;
};
$login = fn (string $password, string $name = 'ann'): bool =>
    $guard()->attempt(['name' => $name, 'password' => $password]);
$set = function (string $password, ?Argon2IdHasher $by = null) use ($cheap): void {
    User::query()->where('name', 'ann')->update(['password' => ($by ?? $cheap)->make($password)]);
};
User::create(['name' => 'ann', 'password' => $cheap->make('stolen')]);
foreach (['null' => null, 'empty' => '', 'star' => '*', 'text' => 'secret'] as $name => $record) {
    User::create(['name' => $name, 'password' => $record]);
}

check(!$login('guess'), 'a guess');
check($login('stolen'), 'a login');
$record = User::first()->password;
check(str_contains($record, 'm=128,') && $login('stolen') && User::first()->password === $record, 'upgrade');

foreach (['ann', 'nobody', 'null', 'empty', 'star', 'text'] as $name) {
    $hasher->hashes = $hasher->outside = 0;
    check(!$login('secret', $name), "no login of $name");
    check([$hasher->hashes, $hasher->outside] === [1, 0], "$name costs one hash, in the guard's time box");
}
check($provider->retrieveByCredentials(['name' => 'nobody']) === null, 'no user for who gives no password');

$set('stolen');
$hasher->after = fn () => $set('new');
check(!$login('stolen') && !$login('stolen') && $login('new'), 'the race');
$set('stolen', $hasher); // of current costs: read before the change, and answered after it
$hasher->after = fn () => $set('new', $hasher);
check(!$login('stolen') && $login('new'), 'a login is looked at again');

$set('old');
$user = User::first();
$hasher->after = fn () => $set('old'); // a new record of the same password
check($provider->validateCredentials($user, ['password' => 'old']), 'at what stands');
check($user->password === User::first()->password && !$user->isDirty(), 'the user has what stands');
$user->remember_token = 'x';
$set('newer');
$user->save();
check($login('newer'), 'what is saved beside it leaves the record');

User::query()->where('name', 'ann')->update(['hidden' => 1, 'password' => $cheap->make('old')]);
$seen = new CompareAndSetUserProvider($hasher, Seen::class);
$hidden = Seen::withoutGlobalScopes()->where('name', 'ann')->first();
check($seen->validateCredentials($hidden, ['password' => 'old']), 'a scope of the model hides no row');
check(str_contains(User::first()->password, 'm=128,'), 'nor from the upgrade');
$hidden = Seen::withoutGlobalScopes()->where('name', 'ann')->first();
check($seen->validateCredentials($hidden, ['password' => 'old']), 'nor from the second look');

$set('old');
$user = User::first();
check(!$provider->change($user, 'guess', 'new') && $provider->change($user, 'old', 'new') && $login('new'), 'a change');
$set('old', $hasher);
$user = User::first();
$hasher->making = fn () => $set('reset');
check(!$provider->change($user, 'old', 'mine') && $login('reset'), 'a change undoes no reset');
$set('old', $hasher);
$user = User::first();
$hasher->making = fn () => $set('old'); // a login that upgrades
check($provider->change($user, 'old', 'mine') && $login('mine'), 'a change after an upgrade is done');
$user = User::first();
$set('another');
check(!$provider->put($user, $user->getAuthPassword(), 'late') && $login('another'), 'a reset compares');

$set('old', $hasher); // a session of the old password ends with it, even if it began during the change
$session = new Store('s', $handler);
$ask = function (SessionGuard $guard) use ($session): bool {
    $request = new Request();
    $request->setLaravelSession($session);
    $request->setUserResolver(fn () => $guard->user());
    try {
        (new AuthenticateSession(new OneGuard($guard)))->handle($request, fn () => null);
        return $guard->check();
    } catch (AuthenticationException) {
        return false;
    }
};
$web = $guard($session);
check($web->attempt(['name' => 'ann', 'password' => 'old']), 'the login that begins a session');
$ask($web);
check($ask($guard($session)), 'a session goes on');
$set('new');
check(!$ask($guard($session)), 'a session ends with its record');

$set('stolen');
$user = User::first();
$hasher->after = fn () => User::query()->where('name', 'ann')->delete();
check(!$provider->validateCredentials($user, ['password' => 'stolen']), 'a user who is gone is refused');
User::create(['name' => 'ann', 'password' => $cheap->make('stolen')]);

$user = User::query()->where('name', 'ann')->first(); // as Laravel 11 does: the same without the condition
check($hasher->check('stolen', $user->password), 'right');
$set('new');
$user->forceFill(['password' => $hasher->make('stolen')])->save();
check($login('stolen') && !$login('new'), 'without the condition the change is undone');
$set('stolen');
$user = User::query()->where('name', 'ann')->first();
$set('new');
$provider->rehashPasswordIfRequired($user, ['password' => 'stolen'], true);
check($login('new'), 'and what Laravel 11 calls does nothing');
echo "Laravel: all right, and without the condition the change is undone\n";
