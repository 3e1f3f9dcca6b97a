"""What a Label Generation Ruleset says of labels by RFC 7940, told apart from the program, which is compared with it.

schema             the elements of a file, as the schema of the standard has them
reader             reads a file, strictly: what the standard doesn't allow is refused
rules              its rules, and where they match; unicode_properties: those that a class may name
ruleset            an evaluator: what a ruleset says of a label, and of one variant of it
drawn_labels       labels that may show a difference, drawn from a ruleset
verified           where a table or a ruleset of the notation says something else
"""
