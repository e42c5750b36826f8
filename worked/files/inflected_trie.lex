slx 2
phase noun
phase ind
grammar (ind | noun)+
plain a k
plain a c
rule a|i>e
node 0::ind -
node 3:a:m.sg.ins -
node - a=1
node - i=0
node - R=2
node - t=3
node - e=4
node - i=5
node - r=6
node - a=8
node - n=9
root noun 10
root ind 7
end
