"""Which fixings a book asks for. `facts` and `walk` go through the places that a contract may read,
`probes` puts choices to the program.
"""
