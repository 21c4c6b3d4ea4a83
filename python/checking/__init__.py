"""The words around the proved checker of route books, for the command ./check.

Every verdict is that of the proved program book_check (verdicts). What is here only shows the line, names the slip and says how to
mend it: it decides nothing, and where it finds no more to say the verdict still stands.
"""
