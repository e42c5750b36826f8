slx 1
phase ind
phase pre
phase verb
grammar (ind | pre? verb)+
plain A g
rule a|A>A
form ind na na ind
form pre A A pv
form verb gacCati gam pr.ac.3.sg
end
