"""`serve`: answers over HTTP, with pages for people. It stands on aiohttp, which is read only when it is asked for.

start        sockets, signals, the start and the end
connections  how many there may be
protocol     how long one may take, how many requests of it wait, and what is no request of HTTP
answering    what is asked of the zone, with what an operator is told of it
application  which path answers what
people       the pages over HTTP
bodies       requests and answers as HTTP has them
openapi      the description of all of it
metrics      what a dashboard reads
"""
