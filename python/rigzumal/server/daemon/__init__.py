"""credkeep-server(8): lets many clients of Unix sockets query one book.

A request enters the modules in this order:

    doors       the sockets, their clients, and the shares of users
    clients     the lines of a client, and its answers
    web         the requests of a client that speaks HTTP, and its answers
    service     the rights of clients, their turns at the book, and notes for the audit log
    names       the typed form of names, and the form in the book
    book        the book's process, and the turns of its users

The other modules are:

    main        the server's start, its run and its end
    options     the command line
    protocol    the tables of operations and answers
    costs       the memory and the work of a hash
    tally       the counts of answers
    disk        the free space on the disks, and the room of the book's log
    journal     the log, systemd's notices, and the audit log
    appending   files that only grow, and the process that writes the audit log
    transfers   imports, exports and backups of the whole book
    earlier     the marks that an earlier version kept beside the book
    foreign     users of an htpasswd file, who move into the book
    old_file    that file
    aging       a user's line in it, with its dates
    schemes     a user's record in it
    tries       failed tries at these users: the book counts those at its accounts
    ask         credkeep-ask(1)

A function's name is the noun for its result, or the verb for its work. The name of a question
begins with is, are, has, have, may or must. Requests and answers are bytes. The package imports no
other part of rigzumal, so that bin/credkeep-server and bin/credkeep-ask can run it on its own.
"""
