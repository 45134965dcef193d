a = 'Zürich €'
% Ωmega in a comment
