slx 1
phase noun
phase ind
grammar (ind | noun)+
plain a k
plain a c
rule a|i>e
form noun nareRa nara m.sg.ins
form ind iti iti ind
end
