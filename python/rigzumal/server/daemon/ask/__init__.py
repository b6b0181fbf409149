"""credkeep-ask(1) runs the commands of credkeep, and asks for passwords at the terminal without
echo.

Like all of `daemon`, this package imports no other part of rigzumal, so that bin/credkeep-ask can
run it on its own.
"""
