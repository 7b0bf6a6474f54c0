"""Placements by name: CSV files in, the proved programs run on their numbers, names out. Nothing is decided here.

command      the arguments, the three commands, the exit statuses
files        the three CSV files and their mistakes
college      names as the numbers of a book, a matching and weights
programs     the proved programs, and what they print
text         the answers as text
page         the sheet as an HTML page
table        the sheet as a CSV file
output       files written whole or not at all
"""
