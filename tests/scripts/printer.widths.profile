[[device]]
name = "thin"
category = "POSPrinter"
chars = 1
lines = 100
near = 0

[[device]]
name = "near"
category = "POSPrinter"
chars = 255
lines = 2
near = 100000

[[device]]
name = "empty"
category = "POSPrinter"
chars = 42
lines = 0
near = 0
