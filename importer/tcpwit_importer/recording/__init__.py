"""Recording programs: network namespaces, a carrier between them, captures, and the programs under strace."""

NAME = "tcpwit-record"
