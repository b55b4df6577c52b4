"""Pages, reports and witnesses: what `atomic` and `atomic_why` say of a source, for people to look at.

Each of the three commands is a module with a `main`: `page`, `witness` and `sarif`. The other modules serve them:
`programs` runs the proved programs, `lines` reads what they write, `source` reads the text of a source, and `machine`
takes its steps. Nothing here is proved. What is read from a text here is held against the programs.
"""
# the first number of the version; the others say which commit it is
RELEASE = "0"
