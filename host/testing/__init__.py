"""What host/test and host/figures are made of: namespaces, the network in them, daemons, flows of numbered packets with their observers."""
