module tcpwit

go 1.19
