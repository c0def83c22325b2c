"""The commands tcpwit-import, tcpwit-judge and tcpwit-record."""
