slx 1
phase ind
grammar (ind | ind)+
rule a|i>e
form ind iti iti ind
form ind ca ca ind
end
