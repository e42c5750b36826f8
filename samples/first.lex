slx 1
phase noun
phase verb
grammar noun* verb
rule aH|v>ov
rule m|g>Mg
form noun rAmaH rAma m.sg.nom
form noun vanam vana n.sg.acc
form verb gacCati gam pr.ac.3.sg
end
