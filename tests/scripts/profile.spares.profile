[[device]]
name = "front"
category = "LineDisplay"
rows = 1
columns = 3

[[device]]
name = "till-2"
category = "CashDrawer"

[[device]]
name = "slip"
category = "POSPrinter"
chars = 4
lines = 9
near = 1

[[spare]]
category = "LineDisplay"
rows = 3
columns = 1

[[spare]]
category = "POSPrinter"
chars = 4
lines = 7
near = 1

[[spare]]
category = "Scanner"

[[spare]]
category = "LineDisplay"
rows = 1
columns = 3
