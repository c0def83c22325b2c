"""Tests the hosts of a pair without root: which system commands are run."""
import unittest
from unittest import mock

from tcpwit_importer.recording import namespaces


class Namespaces(unittest.TestCase):
    def test_each_host_knows_its_neighbour(self):
        for kernel in ("plain", "shipped"):
            with mock.patch.object(namespaces, "Namespace", mock.MagicMock), mock.patch.object(namespaces, "setting"), \
                    mock.patch.object(namespaces, "offloads_off"), mock.patch.object(namespaces, "run") as run:
                namespaces.joined_pair(kernel, None)
            commands = [" ".join(call.args) for call in run.call_args_list]
            neighbors = ("10.9.0.2", "02:00:00:00:00:02"), ("10.9.0.1", "02:00:00:00:00:01")
            for number, (address, link) in enumerate(neighbors):
                for other in (address, address.replace("10.9.0.", "fd09::")):
                    self.assertIn(f"ip neighbor replace {other} lladdr {link} dev w{number} nud permanent", commands)
                self.assertIn(f"ip link add w{1 - number} address {link} type veth peer name c{1 - number}", commands)


if __name__ == "__main__":
    unittest.main()
