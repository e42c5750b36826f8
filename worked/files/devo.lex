slx 1
phase word
grammar word+
rule aH|g>og
form word gacCati gam pr.ac.3.sg
form word devaH deva m.sg.nom
end
