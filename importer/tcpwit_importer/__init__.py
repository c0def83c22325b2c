"""Makes traces for tcpwit of captures and logs of system calls, and judges them."""
