[[device]]
name = "one"
category = "LineDisplay"
rows = 1
columns = 1

[[device]]
name = "row"
category = "LineDisplay"
rows = 1
columns = 3

[[device]]
name = "big"
category = "LineDisplay"
rows = 8
columns = 80
