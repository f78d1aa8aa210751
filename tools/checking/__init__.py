# Whether the templates of a set can make one name: reading a set, asking the proved program, and saying what it answered.
#
#     setform.py    a set's text, read into parts, rules and templates
#     machines.py   automata as values: joined, multiplied, made small
#     equation.py   a question as an equation of two joined names, and its rewritings
#     modelling.py  an equation as a problem for the program, and back from its answer
#     classes.py    a problem with one letter in the place of all that nothing tells apart
#     asking.py     the problems of every question, asked side by side and split where one is spent
#     planning.py   the problems as files in a folder, for other machines, and their answers
#     report.py     the verdicts in lines and as JSON; page.py: as a page
