slx 1
phase word
grammar word+
plain a d
form word datta datta m.sg.voc
form word deva deva m.sg.voc
form word devadatta devadatta m.sg.voc
end
