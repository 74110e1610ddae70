#!/usr/bin/env python3
"""example.py LIBRARY DISKS NOW NEXT: plans the migration of three tables by the shared library, checks the plan, and prints it with the
verdict. The status is that of the last call."""
import sys

import migrate


def main() -> int:
    library = migrate.Library(sys.argv[1])
    tables = [open(name, "rb").read() for name in sys.argv[2:5]]
    try:
        made = library.plan(*tables)
        sys.stdout.write(made.plan.decode())
        print(library.check(*tables, *made))
    except migrate.Error as error:
        sys.stdout.write(error.text)
        return error.status
    return 0


if __name__ == "__main__":
    sys.exit(main())
