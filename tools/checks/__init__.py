"""Checks. Each is one file, which `./check` finds by its name: its docstring is its help, `OPTIONS` says what it takes, and `run` tells whether all is
well. One that takes --self-test has its planted mistakes in tools/planted, under the same name."""
