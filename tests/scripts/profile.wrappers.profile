[[device]]
name = "d1"
category = "CashDrawer"
flaky = [1, 1]
record = true

[[device]]
name = "s1"
category = "Scanner"
flaky = [1, 1000000]

[[device]]
name = "p1"
category = "LineDisplay"
rows = 2
columns = 4
ring = true
flaky = [2, 2]
record = true

[[device]]
name = "r1"
category = "POSPrinter"
chars = 8
lines = 5
near = 2
flaky = [1, 1]

[[device]]
name = "slip"
category = "POSPrinter"
chars = 4
lines = 0
near = 0
flaky = [3, 1]
record = false

[[spare]]
category = "CashDrawer"
flaky = [0, 2]
record = true
