slx 1
phase word
grammar word+
rule s|>H
form word devas deva m.sg.nom
end
