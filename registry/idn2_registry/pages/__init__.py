"""What people look at: a label, and a table. Nothing is decided here: what is said of labels are answers of the program.

html          elements, in which every text is escaped
points        glyphs and names of code points
frame         what all pages have in common
sentences     an answer and a refusal in a sentence
classes       what the program says of one code point
label_page    a label with its verdict, code point by code point, and its variants
patterns      rules in words, and labels that come near them
examples      labels that a rule admits and refuses, asked of the program
variant_sets  which sequences are variants of each other
table_page    a table with its letters, its variants and its rules
"""
