slx 1
phase word
grammar word+
plain a a
form word a a ind
form word aa aa ind
end
