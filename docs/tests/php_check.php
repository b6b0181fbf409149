<?php
// The shared parts of the tests of docs/PHP.md. Each test runs over the library that make built.

function check(bool $right, string $what): void
{
    if (!$right) {
        echo "FAILED: $what\n";
        exit(1);
    }
}

/** Runs the waiting function, if there is one, and only once. */
function once(?Closure &$due): void
{
    [$act, $due] = [$due, null];
    $act && $act();
}

check(str_contains(file_get_contents('/proc/self/maps'), 'c/out/libargon2.so.1'), 'our library');
