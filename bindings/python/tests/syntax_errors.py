"""What syntax errors say that several tests meet."""

# Where an operand is missing at the end of a query.
NO_OPERAND = 'unexpected end of query, expected expression, "bool", "ignoring", "on", "fill", "fill_left" or "fill_right"'
# What follows what was found and the tokens that may follow that operand alone.
NO_OPERATOR = 'operator, "@", "offset", "smoothed", "anchored" or end of query; an operator is missing before it'
