x = 1
classdef = 2
