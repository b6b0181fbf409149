<?php // A provider of users for Laravel: docs/PHP.md says how to register it.
namespace App\Auth;

use Illuminate\Auth\EloquentUserProvider;
use Illuminate\Contracts\Auth\Authenticatable;

class CompareAndSetUserProvider extends EloquentUserProvider
{
    /** An unknown name gets a user who isn't saved, so that the guard judges her in its time box. */
    public function retrieveByCredentials(array $credentials)
    {
        $user = parent::retrieveByCredentials($credentials);
        return $user ?? (isset($credentials['password']) ? $this->createModel() : null);
    }

    public function validateCredentials(Authenticatable $user, array $credentials)
    {
        for ($turn = 0; $turn < 8; $turn++) {
            $record = (string) $user->getAuthPassword();
            if (!$user->exists || password_get_info($record)['algo'] === null) {
                $this->hasher->make($credentials['password']); // so that the answer takes as long
                return false;
            }
            if (!$this->hasher->check($credentials['password'], $record)) {
                return false;
            }
            if ($this->hasher->needsRehash($record) && $this->put($user, $record, $credentials['password'])) {
                return true;
            }
            $now = $user->newQueryWithoutScopes()->find($user->getKey());
            if ($now === null) {
                return false;
            }
            if ($now->getAuthPassword() === $record && !$this->hasher->needsRehash($record)) {
                return true;
            }
            $user->setRawAttributes($now->getAttributes(), true);
        }
        return false;
    }

    /** Replaces the checked record by one of the password; returns false if the row has another. */
    public function put(Authenticatable $user, string $record, string $password): bool
    {
        $new = $this->hasher->make($password);
        $rows = $user->newQueryWithoutScopes()->whereKey($user->getKey())->where('password', $record)->toBase();
        if ($rows->update(['password' => $new]) !== 1) {
            return false;
        }
        $user->setRawAttributes(['password' => $new] + $user->getAttributes());
        $user->syncOriginalAttribute('password');
        return true;
    }

    /** Writes the new password if the old one is right. */
    public function change(Authenticatable $user, string $old, string $new): bool
    {
        for ($turn = 0; $turn < 8; $turn++) {
            if (!$this->validateCredentials($user, ['password' => $old])) {
                return false;
            }
            if ($this->put($user, $user->getAuthPassword(), $new)) {
                return true;
            }
        }
        return false;
    }

    public function rehashPasswordIfRequired(Authenticatable $user, array $credentials, bool $force = false)
    {
        // validateCredentials does this, with a comparison
    }
}
