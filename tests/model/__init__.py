"""The independent model of the tunnel end, written from the rules (docs/RULES.md) and docs/REPLAY.md alone, never from the Rattle source.

Each module imports only those above it:

    octets          bytes, checksums, addresses
    rules           settings, and what a packet must be and how one is written
    joining         datagrams that are collected (R23), each as the pieces of it that were taken
    node            the node of one service or two: its calls, path sizes by the plain record
    digests         digests as docs/REPLAY.md has them
    formats         the inputs and lines of `replay` and of the program (R17)
    comparing       two recordings beside each other (R27)
    recordings      the input and lines of `recordings`
    builders        datagrams and their pieces, packets, reports, advertisements and solicitations from their fields
    faults          for each number the changes of fields that bring it about
    calls           lists of calls in the making, those of one service and those of the other
    pieces          datagrams that are handed in in pieces
    scenarios       runs of calls that show one rule
    scenarios_pieces  those of joining (R23)
    scenarios_services  those of services (R26)
    scenarios_recordings  inputs of `recordings` (R27)
    many_options    solicitations and advertisements of many options
    extension_headers  packets too big with extension headers (R25)
    generator       random lists, bad inputs, inputs of the program (R17)
    double_faults   calls with two faults, also as tests/double_faults.txt
    named           the named set, the fixed batches, the stored list
    checked_values  the checked values (R18); how often each answer occurs
    wrong           wrong models, and what tells them apart

Numbers like R5.3 are rules of docs/RULES.md.
"""
