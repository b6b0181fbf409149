"""Django's logins over the proved library, with upgrades that never undo a change.

After a right login Django rehashes a record with old costs, by an UPDATE without a condition. If
the password changed after that login began, the UPDATE restores the old password. In this package
an UPDATE writes a record only if the row still has the record that the login checked.
docs/DJANGO.md describes the settings.

    backends    CompareAndSetBackend
    users       a mixin for user models, and how a stock User gets it
    passwords   check_password, change_password, set_password
    forms       the forms of a change and of a reset; views, urls: with these forms
    admin       UserAdmin; site: an AdminSite; management: changepassword
    hashers     Argon2 and scrypt, in Django's own strings
    checks      the checks of `manage.py check`
    records     the base of all of these
"""
