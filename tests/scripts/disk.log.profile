[[device]]
name = "t1"
category = "HardTotals"
