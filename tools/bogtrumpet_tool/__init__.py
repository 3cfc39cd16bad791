"""bogtrumpet-tool: what an operator needs around the programs and the library.

Nothing here is proved. The tool judges no datagram and writes no packet: the programs `tunnel` and `replay` and the library do, by calls that are
proved. It turns texts and captures into their inputs, and what the library wrote into a capture; tests/tool holds it against an independent
model, the header and tshark.
"""
