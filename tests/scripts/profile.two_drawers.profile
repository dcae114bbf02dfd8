[[device]]
name = "left"
category = "CashDrawer"

[[device]]
name = "right"
category = "CashDrawer"

[[device]]
name = "one"
category = "Scanner"

[[device]]
name = "two"
category = "Scanner"
