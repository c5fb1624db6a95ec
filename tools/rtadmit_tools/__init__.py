"""The programs beside rtadmit: tools/host for who has a host, tools/gate for who changes the program."""
