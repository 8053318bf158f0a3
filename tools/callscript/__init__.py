"""Call scripts as text: the forms of a script, its printout beside its calls, and the lists after each call.

calls.py     the calls of a script and their fields
binary.py    the binary form (document 01, "Script and printout")
text.py      the text form
printout.py  the lines of a printout
book.py      the state after each call, from the calls and the answers alone
state.py     what a book holds, in rows
run.py       a script beside its printout, and a card's
terminal.py  a run in the terminal
page.py      a run as one HTML page
command.py   the command bin/callscript
"""
