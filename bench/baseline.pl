% baseline.pl - measuring stick: the connection calculi of leanCoP, ileanCoP and
% MleanCoP written anew in SWI-Prolog after the published papers (Otten & Bibel 2003,
% Otten 2005, 2008, 2014).  No part of the program.
%
% swipl -O baseline.pl -- FILE [--logic=L] [--domains=D] [--limit=N] [--root=DIR]
%                         [--cut] [--scut] [--lemmata] [--ground] [--early] [--safe] [--time=S]
%   default: plain calculus: start clause, reduction, extension, regularity, iterative
%   deepening on the path length (limit holds for ground clauses too, as in leancop).
%   --ground   ground clauses are free of the path limit (as leanCoP 2.x does)
%   --early    with prefixes: at each connection all equations so far are tested together (not in
%              the original; shows what early pruning within the same calculus buys)
%   --lemmata  lemma rule;  --cut, --scut  restricted backtracking (incomplete)
% Last line:  STATUS limit=L steps=S kept=K cpu=SECONDS load=SECONDS clauses=C
%   steps: start, reduction and extension steps whose unification succeeded within the path
%          limit, over all limits (the live choice lists of leancop are the same thing)
%   kept:  with prefixes: those whose two prefixes unify too
%   --time is CPU seconds; --safe uses a plain bounded word unifier in place of T-string unification
:- module(baseline, [main/0]).
:- use_module(library(lists)).
:- use_module(library(readutil)).
:- set_prolog_flag(double_quotes, codes).
:- set_prolog_flag(optimise, true).
:- dynamic lit/7, start/4, opt/1, pathlim/0, setting/2, skolem/1.

% ---------------------------------------------------------------- reader
tokens(File, Ts) :- read_file_to_codes(File, Cs, [encoding(octet)]), lex(Cs, Ts).
lex([], []).
lex([C|Cs], Ts) :- C =< 32, !, lex(Cs, Ts).
lex([0'%|Cs], Ts) :- !, skip_line(Cs, R), lex(R, Ts).
lex([0'/,0'*|Cs], Ts) :- !, skip_block(Cs, R), lex(R, Ts).
lex([0''|Cs], [w(A)|Ts]) :- !, quoted(Cs, As, R), atom_codes(A, As), lex(R, Ts).
lex([0'"|Cs], [x(A)|Ts]) :- !, dquoted(Cs, As, R), atom_codes(A, As), lex(R, Ts).
lex([C|Cs], [T|Ts]) :- code_type(C, alpha), C < 128, C =\= 0'_, !, word(Cs, Ws, R), atom_codes(A, [C|Ws]),
    ( C >= 0'a -> T = w(A) ; T = v(A) ), lex(R, Ts).
lex([0'$|Cs], [d(A)|Ts]) :- !, word(Cs, Ws, R), atom_codes(A, Ws), lex(R, Ts).
lex([0'#|Cs], [h(A)|Ts]) :- !, word(Cs, Ws, R), atom_codes(A, Ws), lex(R, Ts).
lex([C|Cs], [n(A)|Ts]) :- C >= 0'0, C =< 0'9, !, word(Cs, Ws, R), atom_codes(A, [C|Ws]), lex(R, Ts).
lex(Cs, [s(S)|Ts]) :- sign(S, Cs, R), !, lex(R, Ts).
sign('<=>') --> "<=>". sign('<~>') --> "<~>". sign('=>') --> "=>". sign('<=') --> "<=".
sign('~|') --> "~|". sign('~&') --> "~&". sign('!=') --> "!=".
sign(A) --> [C], { memberchk(C, "()[],.:~!?&|=+-*/<>@"), atom_codes(A, [C]) }.
skip_line([], []). skip_line([10|R], R) :- !. skip_line([_|Cs], R) :- skip_line(Cs, R).
skip_block([0'*,0'/|R], R) :- !. skip_block([_|Cs], R) :- skip_block(Cs, R).
quoted([0'\\,C|Cs], [C|As], R) :- !, quoted(Cs, As, R).
quoted([0''|R], [], R) :- !.
quoted([C|Cs], [C|As], R) :- quoted(Cs, As, R).
dquoted([0'\\,C|Cs], [C|As], R) :- !, dquoted(Cs, As, R).
dquoted([0'"|R], [], R) :- !.
dquoted([C|Cs], [C|As], R) :- dquoted(Cs, As, R).
word([C|Cs], [C|Ws], R) :- ( C >= 0'a, C =< 0'z ; C >= 0'A, C =< 0'Z ; C >= 0'0, C =< 0'9 ; C =:= 0'_ ; C =:= 0'$ ), !, word(Cs, Ws, R).
word(R, [], R).

% items: list of Role-Formula, in the walk's order
load(File, Root, Its) :- load(File, Root, all, Its, []).
load(File, Root, Sel, Its, Its0) :- tokens(File, Ts), items(Ts, Root, Sel, Its, Its0).
items([], _, _, Its, Its).
items([w(include),s('('),w(F)|Ts], Root, Sel, Its, Its0) :- !,
    ( Ts = [s(','),s('[')|T1] -> names(T1, Ns, T2), ( Sel = all -> Sel1 = in(Ns) ; Sel = in(M), intersection(Ns, M, K), Sel1 = in(K) )
    ; Ts = T2, Sel1 = Sel ),
    T2 = [s(')'),s('.')|T3], resolve(F, Root, P), load(P, Root, Sel1, Its, Its1), items(T3, Root, Sel, Its1, Its0).
items([w(K),s('('),N,s(','),w(Role),s(',')|Ts], Root, Sel, Its, Its0) :-
    memberchk(K, [fof,cnf,qmf]), arg(1, N, Name), fml(F, Ts, T1, [], FV), !, skip_notes(T1, T2),
    ( ( Sel = all ; Sel = in(L), memberchk(Name, L) ) -> univ(FV, F, F1), Its = [Role-F1|Its1] ; Its = Its1 ),
    items(T2, Root, Sel, Its1, Its0).
items([T1,T2,T3|_], _, _, _, _) :- throw(syntax(T1,T2,T3)).
names([T,s(']')|R], [N], R) :- !, arg(1, T, N).
names([T,s(',')|Ts], [N|Ns], R) :- arg(1, T, N), names(Ts, Ns, R).
skip_notes([s(')'),s('.')|R], R) :- !.
skip_notes([s(','),T|Ts], R) :- skip_to([T|Ts], 0, R).
skip_to([s(')'),s('.')|R], 0, R) :- !.
skip_to([s(S)|Ts], D, R) :- ( S == '(' ; S == '[' ), !, D1 is D+1, skip_to(Ts, D1, R).
skip_to([s(S)|Ts], D, R) :- ( S == ')' ; S == ']' ), !, D1 is D-1, skip_to(Ts, D1, R).
skip_to([_|Ts], D, R) :- skip_to(Ts, D, R).
resolve(F, Root, P) :- atomic_list_concat([Root,'/',F], P0), ( exists_file(P0) -> P = P0 ; P = F ).
univ(FV, F, F1) :- univ0(FV, F, F1).               % FV: Name=Var, first occurrence first
univ0([], F, F). univ0([_=X|L], F, all(X,F1)) :- univ0(L, F, F1).

% formulas; the state is the list of free variables met so far (in order)
fml(F, Ts, R, V0, V) :- unit(A, Ts, T1, [], V0, V1), fml_rest(T1, A, F, R, [], V1, V).
fmlb(F, B, Ts, R, V0, V) :- unit(A, Ts, T1, B, V0, V1), fml_rest(T1, A, F, R, B, V1, V).
fml_rest([s(C)|Ts], A, F, R, B, V0, V) :- ( C == '&' ; C == '|' ), !,
    chain(C, Ts, L, R, B, V0, V), bal([A|L], C, F).
fml_rest([s(O)|Ts], A, F, R, B, V0, V) :- memberchk(O, ['=>','<=','<=>','<~>','~|','~&']), !,
    unit(A2, Ts, R, B, V0, V), bin(O, A, A2, F).
fml_rest(Ts, A, A, Ts, _, V, V).
chain(C, Ts, [A|L], R, B, V0, V) :- unit(A, Ts, T1, B, V0, V1),
    ( T1 = [s(C)|T2] -> chain(C, T2, L, R, B, V1, V) ; L = [], R = T1, V = V1 ).
bal([A], _, A) :- !.
bal(L, C, F) :- length(L, N), H is (N+1)//2, length(L1, H), append(L1, L2, L), bal(L1, C, A), bal(L2, C, B),
    ( C == '&' -> F = and(A,B) ; F = or(A,B) ).
bin('=>', A, B, imp(A,B)). bin('<=', A, B, imp(B,A)).
bin('<=>', A, B, and(imp(A,B),imp(B,A))). bin('<~>', A, B, not(and(imp(A,B),imp(B,A)))).
bin('~|', A, B, not(or(A,B))). bin('~&', A, B, not(and(A,B))).
unit(F, [s('(')|Ts], R, B, V0, V) :- !, fmlb(F, B, Ts, [s(')')|R], V0, V).
unit(not(F), [s('~')|Ts], R, B, V0, V) :- !, unit(F, Ts, R, B, V0, V).
unit(F, [s(Q),s('[')|Ts], R, B, V0, V) :- ( Q == '!' ; Q == '?' ), !,
    vars(Ts, Q, F, G, B, B1, [s(':')|T1]), unit(G, T1, R, B1, V0, V).
unit(box(F), [h(box),s(':')|Ts], R, B, V0, V) :- !, unit(F, Ts, R, B, V0, V).
unit(dia(F), [h(dia),s(':')|Ts], R, B, V0, V) :- !, unit(F, Ts, R, B, V0, V).
unit(imp(a('$$o'),a('$$o')), [d(true)|R], R, _, V, V) :- !.
unit(not(imp(a('$$o'),a('$$o'))), [d(false)|R], R, _, V, V) :- !.
unit(F, Ts, R, B, V0, V) :- term(T, Ts, T1, B, V0, V1),
    ( T1 = [s('=')|T2] -> term(U, T2, R, B, V1, V), F = a(T=U)
    ; T1 = [s('!=')|T2] -> term(U, T2, R, B, V1, V), F = not(a(T=U))
    ; nonvar(T), F = a(T), R = T1, V = V1 ).
vars([v(N),s(S)|Ts], Q, F, G, B, B1, R) :- ( Q == '!' -> F = all(X,F1) ; F = ex(X,F1) ),
    ( S == ',' -> vars(Ts, Q, F1, G, [N=X|B], B1, R) ; S == ']', F1 = G, B1 = [N=X|B], R = Ts ).
term(T, [v(N)|R], R, B, V0, V) :- !, ( memberchk(N=T0, B) -> T = T0, V = V0 ; memberchk(N=T0, V0) -> T = T0, V = V0 ; append(V0, [N=T], V) ).
term(T, [w(N)|Ts], R, B, V0, V) :- ( Ts = [s('(')|T1] -> args(As, T1, R, B, V0, V), T =.. [N|As] ; T = N, R = Ts, V = V0 ).
args([A|As], Ts, R, B, V0, V) :- term(A, Ts, T1, B, V0, V1),
    ( T1 = [s(',')|T2] -> args(As, T2, R, B, V1, V) ; T1 = [s(')')|R], As = [], V = V1 ).

% ---------------------------------------------------------------- the problem's formula
problem(File, Root, F, HasConst) :-
    load(File, Root, Its), findall(X, ( member(_-G, Its), sym(G, X) ), Ss0), dedup(Ss0, Ss),
    findall(A, ( member(R-A, Its), R \== conjecture ), Prem0), setting(Logic, _),
    ( memberchk(p((=),2), Ss), memberchk(Logic, [classical,intuitionistic]) -> eq_axioms(Ss, Eq), append(Eq, Prem0, Prem) ; Prem = Prem0 ),
    ( member(conjecture-C, Its) -> ( Prem == [] -> F = C ; bal(Prem, '&', P), F = imp(P,C) ) ; bal(Prem, '&', P), F = not(P) ),
    ( memberchk(f(_,0), Ss) -> HasConst = yes ; HasConst = no ).
dedup(L, R) :- dedup(L, R, []).
dedup([], [], _). dedup([X|L], R, S) :- ( memberchk(X, S) -> R = R1, S1 = S ; R = [X|R1], S1 = [X|S] ), dedup(L, R1, S1).
sym(a(T), p(N,A)) :- functor(T, N, A).
sym(a(T), S) :- compound(T), T =.. [_|As], member(A, As), tsym(A, S).
sym(F, S) :- F \= a(_), ( F = all(_,G) -> true ; F = ex(_,G) -> true ; F =.. [_|Gs], member(G, Gs) ), sym(G, S).
tsym(T, S) :- nonvar(T), ( functor(T, N, A), S = f(N,A) ; compound(T), T =.. [_|As], member(X, As), tsym(X, S) ).
eq_axioms(Ss, [all(X,a(X=X)), all(X1,all(Y1,imp(a(X1=Y1),a(Y1=X1)))),
    all(X2,all(Y2,all(Z2,imp(and(a(X2=Y2),a(Y2=Z2)),a(X2=Z2)))))|L]) :-
    findall(F, ( member(f(N,A), Ss), A > 0, cong(N, A, f, F) ), L1),
    findall(F, ( member(p(N,A), Ss), A > 0, N \== (=), cong(N, A, p, F) ), L2), append(L1, L2, L).
cong(N, A, K, F) :- length(Xs, A), length(Ys, A), T1 =.. [N|Xs], T2 =.. [N|Ys],
    findall(Xs-Ys-X-Y, ( nth1(I, Xs, X), nth1(I, Ys, Y) ), L0), eqs(L0, Xs, Ys, Es), bal(Es, '&', E),
    ( K = f -> G = imp(E,a(T1=T2)) ; G = imp(and(E,a(T1)),a(T2)) ), append(Xs, Ys, Vs), quant(Vs, G, F).
eqs([], _, _, []). eqs([Xs-Ys-X-Y|L], Xs, Ys, [a(X=Y)|Es]) :- eqs(L, Xs, Ys, Es).
quant([], F, F). quant([X|Xs], F, all(X,G)) :- quant(Xs, F, G).

% ---------------------------------------------------------------- matrix
% m(Formula, Sign, Prefix, FreeVariables, Clauses); clause c(Literals, Gammas)
% literal l(Key, NegKey, Atom, Prefix); prefix: list of characters k(P,Vs) and variables
% S5: a prefix has at most one element
new(I) :- retract(skolem(I0)), I is I0+1, assertz(skolem(I)).
nu(Pre, FV, Pre1, FV1) :- setting(L, _), ( L == s5 -> Pre1 = [V] ; append(Pre, [V], Pre1) ), append(FV, [V], FV1).
pi(Pre, FV, Pre1) :- setting(L, _), new(I), K = k(I,FV), ( L == s5 -> Pre1 = [K] ; append(Pre, [K], Pre1) ).
modal(intuitionistic, F, Sign, Pre, FV, Pre1, FV1) :- memberchk(F, [a(_),not(_),imp(_,_),all(_,_)]), !,
    ( Sign == t -> nu(Pre, FV, Pre1, FV1) ; pi(Pre, FV, Pre1), FV1 = FV ).
modal(_, _, _, Pre, FV, Pre, FV).
m(F, S, Pre0, FV0, M) :- setting(L, _), modal(L, F, S, Pre0, FV0, Pre, FV), m1(F, S, Pre, FV, M).
m1(a(A), S, Pre, _, [c([l(K,NK,A,Pre)],[])]) :- functor(A, N, Ar), key(S, N, Ar, K), other(S, S1), key(S1, N, Ar, NK).
m1(not(A), S, Pre, FV, M) :- other(S, S1), m(A, S1, Pre, FV, M).
m1(and(A,B), t, Pre, FV, M) :- !, m(A, t, Pre, FV, M1), m(B, t, Pre, FV, M2), append(M1, M2, M).
m1(or(A,B), f, Pre, FV, M) :- !, m(A, f, Pre, FV, M1), m(B, f, Pre, FV, M2), append(M1, M2, M).
m1(imp(A,B), f, Pre, FV, M) :- !, m(A, t, Pre, FV, M1), m(B, f, Pre, FV, M2), append(M1, M2, M).
m1(and(A,B), f, Pre, FV, M) :- m(A, f, Pre, FV, M1), m(B, f, Pre, FV, M2), cross(M1, M2, M).
m1(or(A,B), t, Pre, FV, M) :- m(A, t, Pre, FV, M1), m(B, t, Pre, FV, M2), cross(M1, M2, M).
m1(imp(A,B), t, Pre, FV, M) :- m(A, f, Pre, FV, M1), m(B, t, Pre, FV, M2), cross(M1, M2, M).
m1(all(X,A), S, Pre, FV, M) :- copy(X, A, FV, Y, B), ( S == t -> gamma(Y, B, S, Pre, FV, M) ; delta(Y, B, S, Pre, FV, M) ).
m1(ex(X,A), S, Pre, FV, M) :- copy(X, A, FV, Y, B), ( S == f -> gamma(Y, B, S, Pre, FV, M) ; delta(Y, B, S, Pre, FV, M) ).
m1(box(A), S, Pre, FV, M) :- ( S == t -> nu(Pre, FV, P1, FV1) ; pi(Pre, FV, P1), FV1 = FV ), m(A, S, P1, FV1, M).
m1(dia(A), S, Pre, FV, M) :- ( S == f -> nu(Pre, FV, P1, FV1) ; pi(Pre, FV, P1), FV1 = FV ), m(A, S, P1, FV1, M).
copy(X, A, FV, Y, B) :- term_variables(X-A, Vs), exclude_vars(Vs, X, Os), copy_term(X-A-Os, Y-B-Os), FV = FV.
exclude_vars([], _, []). exclude_vars([V|Vs], X, L) :- ( V == X -> L = L1 ; L = [V|L1] ), exclude_vars(Vs, X, L1).
gamma(Y, B, S, Pre, FV, M) :- append(FV, [Y], FV1), m(B, S, Pre, FV1, M0), addg(M0, Y-Pre, M).
addg([], _, []). addg([c(L,G)|M], X, [c(L,[X|G])|N]) :- addg(M, X, N).
delta(Y, B, S, Pre, FV, M) :- new(I), setting(L, _), ( L == classical -> Y = sk(I,FV) ; Y = sk(I,FV,Pre) ), m(B, S, Pre, FV, M).
other(t, f). other(f, t).
key(S, N, A, K) :- ( S == f -> atomic_list_concat([N,/,A,'+'], K) ; atomic_list_concat([N,/,A,'-'], K) ).
cross(M1, M2, M) :- findall_cross(M1, M2, M).
findall_cross([], _, []).
findall_cross([c(L1,G1)|M1], M2, M) :- cross1(M2, L1, G1, M, M0), findall_cross(M1, M2, M0).
cross1([], _, _, M, M).
cross1([c(L2,G2)|M2], L1, G1, [c(L,G)|M], M0) :- append(L1, L2, L), append(G1, G2, G), cross1(M2, L1, G1, M, M0).

assert_matrix(M) :- forall(member(C, M), assert_clause(C)).
assert_clause(c(Ls,G)) :- ( forall(member(l(K,_,_,_), Ls), sub_atom(K, _, 1, 0, '+')) -> assertz(start(Ls, G, x, x)) ; true ),
    ( ground(Ls) -> Gr = g ; Gr = n ), assert_lits(Ls, [], G, Gr).
assert_lits([], _, _, _).
assert_lits([L|Ls], Before, G, Gr) :- append(Before, Ls, Rest), L = l(K,_,A,P), linear(A, A1), assertz(lit(K, A1, A, P, Rest, G, Gr)),
    append(Before, [L], B1), assert_lits(Ls, B1, G, Gr).

% a copy in which each occurrence is a variable of its own: a cheap filter in the clause head
linear(T, T1) :- compound(T), !, T =.. [F|As], linears(As, Bs), T1 =.. [F|Bs].
linear(T, T) :- atom(T), !.
linear(_, _).
linears([], []). linears([A|As], [B|Bs]) :- linear(A, B), linears(As, Bs).

% ---------------------------------------------------------------- search
bump(I) :- cnt(C), arg(I, C, N), N1 is N+1, nb_setarg(I, C, N1), ( N1 /\ 1023 =:= 0 -> over ; true ).
over :- statistics(cputime, T), nb_getval(stop, S), ( T > S -> throw(time_limit_exceeded) ; true ).
cnt(C) :- nb_getval(cnt, C).

% classical
prove(Lim) :- start(Ls, _, _, _), bump(1), ( opt(scut) -> ! ; true ), copy_term(Ls, L1), pr(L1, [], 0, Lim, []).
pr([], _, _, _, _).
pr([Lit|Cla], Path, Len, Lim, Lem) :-
    \+ ( member(LitC, [Lit|Cla]), member(LitP, Path), LitC == LitP ),
    Lit = l(_, NK, A, _),
    (   opt(lemmata), member(LitL, Lem), Lit == LitL
    ;   member(l(NK, _, B, _), Path), unify_with_occurs_check(A, B), bump(1)
    ;   lit(NK, A, B, _, Cla1, _, Gr), unify_with_occurs_check(A, B),
        ( Len < Lim -> true ; Gr == g, opt(ground) -> true ; pathlim -> fail ; assertz(pathlim), fail ),
        bump(1), Len1 is Len+1, pr(Cla1, [Lit|Path], Len1, Lim, Lem)
    ),
    ( opt(cut) -> ! ; true ),
    pr(Cla, Path, Len, Lim, [Lit|Lem]).

% with prefixes: equations and gamma terms are collected, tested at each connection
% alone and all together at the end (as ileanCoP and MleanCoP do)
prove_p(Lim, HC) :- start(Ls, G, _, _), bump(1), copy_term(Ls-G, L1-G1), ( opt(scut) -> ! ; true ),
    pp(L1, [], 0, Lim, [], [], Eq, Gs, G1), reverse(Eq, Eq1), final(Eq1, Gs, HC).
pp([], _, _, _, _, E, E, G, G).
pp([Lit|Cla], Path, Len, Lim, Lem, E0, E, G0, G) :-
    \+ ( member(LitC, [Lit|Cla]), member(LitP, Path), LitC == LitP ),
    Lit = l(_, NK, A, Pre),
    (   opt(lemmata), member(LitL, Lem), Lit == LitL, E0 = E1, G0 = G1
    ;   member(l(NK, _, B, PreN), Path), unify_with_occurs_check(A, B), bump(1), fits(Pre=PreN, E0), bump(2),
        E1 = [Pre=PreN|E0], G0 = G1
    ;   lit(NK, A, B, PreN, Cla1, GC, Gr), unify_with_occurs_check(A, B), ( Len < Lim -> bump(1) ; Gr == g, opt(ground) -> bump(1) ; true ), fits(Pre=PreN, E0),
        ( Len < Lim -> true ; Gr == g, opt(ground) -> true ; pathlim -> fail ; assertz(pathlim), fail ),
        bump(2), Len1 is Len+1, append(GC, G2, G0),
        pp(Cla1, [Lit|Path], Len1, Lim, Lem, [Pre=PreN|E0], E1, G2, G1)
    ),
    ( opt(cut) -> ! ; true ),
    pp(Cla, Path, Len, Lim, [Lit|Lem], E1, E, G1, G).
fits(Q, E) :- ( opt(early) -> \+ \+ punify([Q|E]) ; \+ \+ punify([Q]) ).
final(Eq, Gs, HC) :- \+ \+ ( punify(Eq), setting(L, D), domains(D, L, Gs, HC) ).

punify(Eq) :- setting(L, _), punify(Eq, L).
punify([], _).
punify([S=T|Es], L) :- flat(S, S1), flat(T, T1), pu(L, S1, T1), punify(Es, L).
flat(T, L) :- flat(T, L, []).
flat(V, [V|L], L) :- var(V), !.
flat([], L, L) :- !.
flat([X|Xs], L, L0) :- !, flat(X, L, L1), flat(Xs, L1, L0).
flat(K, [K|L], L).
% D: each variable is one character
pu(d, S, T) :- unify_with_occurs_check(S, T).
% T: each variable is one character or none
pu(t, S, T) :- put(S, T).
pu(s4, S, T) :- su(S, T).
pu(intuitionistic, S, T) :- su(S, T).
pu(s5, S, T) :- put5(S, T).
put5(S, T) :- ( S == T -> true ; put(S, T) ).
put([], []) :- !.
put([X|S], [Y|T]) :- X == Y, !, put(S, T).        % common beginnings
put(S, T) :- put1(S, T).
put1([], T) :- all_empty(T).
put1([X|S], []) :- all_empty([X|S]).
put1([X|S], [Y|T]) :- nonvar(X), nonvar(Y), !, unify_with_occurs_check(X, Y), rest(S, T).
put1([X|S], [Y|T]) :- unify_with_occurs_check(X, Y), rest(S, T).
put1([X|S], T) :- var(X), X = [], rest(S, T).
put1(S, [Y|T]) :- var(Y), Y = [], rest(S, T).
rest(S, T) :- flat(S, S1), flat(T, T1), put(S1, T1).
all_empty([]). all_empty([X|Xs]) :- flat(X, L), ( L == [] -> true ; L = [V], var(V), V = [] ), all_empty(Xs).
% S4 and intuitionistic: each variable is any string.  T-string unification (Otten & Kreitz 1996)
su(S, T) :- opt(safe), !, length(S, N), length(T, M), K is 4*(N+M)+8, su2(S, T, K).
su(S, T) :- tunify(S, [], T).
tunify([], [], []).
tunify([], [], [X|T]) :- tunify([X|T], [], []).
tunify([X1|S], [], [X2|T]) :- ( var(X1) -> var(X2), X1 == X2 ; nonvar(X2), unify_with_occurs_check(X1, X2) ), !, tunify(S, [], T).
tunify([C|S], [], [V|T]) :- nonvar(C), !, var(V), tunify([V|T], [], [C|S]).
tunify([V|S], Z, []) :- var(V), unify_with_occurs_check(V, Z), tunify(S, [], []).
tunify([V|S], [], [C1|T]) :- var(V), nonvar(C1), V = [], tunify(S, [], [C1|T]).
tunify([V|S], Z, [C1,C2|T]) :- var(V), nonvar(C1), nonvar(C2), append(Z, [C1], V1), unify_with_occurs_check(V, V1), tunify(S, [], [C2|T]).
tunify([V,X|S], [], [V1|T]) :- var(V), var(V1), tunify([V1|T], [V], [X|S]).
tunify([V,X|S], [Z1|Z], [V1|T]) :- var(V), var(V1), append([Z1|Z], [Vnew], V2), unify_with_occurs_check(V, V2), tunify([V1|T], [Vnew], [X|S]).
tunify([V|S], Z, [X|T]) :- var(V), ( S = [] ; T \= [] ; nonvar(X) ), !, append(Z, [X], Z1), tunify([V|S], Z1, T).
% a plain word unifier, bounded, to test the one above (--safe)
su2(S, T, K) :- flat(S, S1), flat(T, T1), strip(S1, T1, S2, T2), su3(S2, T2, K).
strip([X|S], [Y|T], S1, T1) :- X == Y, !, strip(S, T, S1, T1).
strip(S, T, S, T).
su3([], T, _) :- !, all_empty(T).
su3(S, [], _) :- !, all_empty(S).
su3([X|S], [Y|T], K) :- nonvar(X), nonvar(Y), !, unify_with_occurs_check(X, Y), su2(S, T, K).
su3(S, T, K) :- K > 0, K1 is K-1, S = [X|S1], T = [Y|T1],
    (   var(X), X = [], su2(S1, T, K1)
    ;   var(Y), Y = [], su2(S, T1, K1)
    ;   var(X), nonvar(Y), X1 = [Y,_], unify_with_occurs_check(X, X1), su2(S, T, K1)
    ;   var(Y), nonvar(X), Y1 = [X,_], unify_with_occurs_check(Y, Y1), su2(S, T, K1)
    ;   var(X), var(Y), ( X = Y, su2(S1, T1, K1) ; X = [Y,_], su2(S, T, K1) ; Y = [X,_], su2(S, T, K1) ) ).

% domain conditions
domains(constant, _, _, _).
domains(cumulative, s5, _, _) :- !.
domains(cumulative, L, Gs, _) :- cums(Gs, L).
domains(varying, L, Gs, HC) :- varys(Gs, L, HC, []).
cums([], _).
cums([X-Pre|Gs], L) :- sks(X, Ps, []), cum1(Ps, Pre, L), cums(Gs, L).
cum1([], _, _).
cum1([P|Ps], Pre, L) :- flat(P, P1), flat(Pre, Pr1), below(L, P1, Pr1), cum1(Ps, Pre, L).
below(d, P, Pre) :- length(P, N), length(P2, N), append(P2, _, Pre), unify_with_occurs_check(P, P2).
below(t, P, Pre) :- append(P2, _, Pre), put(P, P2).
below(s4, P, Pre) :- append(P, [_], P2), su(P2, Pre).
below(intuitionistic, P, Pre) :- append(P, [_], P2), su(P2, Pre).
sks(V, L, L) :- var(V), !.
sks(sk(_,_,P), [P|L], L) :- !.
sks(T, L, L0) :- compound(T), !, T =.. [_|As], skl(As, L, L0).
sks(_, L, L).
skl([], L, L). skl([A|As], L, L0) :- sks(A, L, L1), skl(As, L1, L0).
varys([], _, _, _).
varys([X-Pre|Gs], L, HC, Seen) :- sks(X, Ps, []), eqs_to(Ps, Pre, L),
    ( HC == yes -> S1 = Seen ; free(X, Vs), own(Vs, Pre, L, Seen, S1) ), varys(Gs, L, HC, S1).
eqs_to([], _, _).
eqs_to([P|Ps], Pre, L) :- flat(P, P1), flat(Pre, P2), pu(L, P1, P2), eqs_to(Ps, Pre, L).
free(V, [V]) :- var(V), !.
free(sk(_,_,_), []) :- !.
free(T, L) :- compound(T), !, T =.. [_|As], freel(As, L).
free(_, []).
freel([], []). freel([A|As], L) :- free(A, L1), freel(As, L2), append(L1, L2, L).
own([], _, _, S, S).
own([V|Vs], Pre, L, S, S1) :- ( member(W-P, S), W == V -> flat(P, P1), flat(Pre, P2), pu(L, P1, P2), S2 = S ; S2 = [V-Pre|S] ), own(Vs, Pre, L, S2, S1).

% ---------------------------------------------------------------- main
deepen(L, Max, _, HC, limit(St, L)) :- retractall(pathlim), setting(Lg, _),
    ( ( Lg == classical -> prove(L) ; prove_p(L, HC) ) -> St = 'Theorem'
    ; pathlim -> fail ; St = 'NoTableau' ), !, Max = Max.
deepen(L, Max, x, HC, R) :- nb_setval(done, L), ( L >= Max -> R = limit('Exhausted', L) ; L1 is L+1, deepen(L1, Max, x, HC, R) ).
get(K, D, V) :- ( opt(K=V0) -> V = V0 ; V = D ).
options([], []).
options([A|As], Fs) :- ( atom_concat('--', B, A) -> ( atomic_list_concat([K,V0], =, B) -> ( atom_number(V0, V) -> true ; V = V0 ), assertz(opt(K=V)) ; assertz(opt(B)) ), Fs = Gs ; Fs = [A|Gs] ), options(As, Gs).
main :- current_prolog_flag(argv, Av), options(Av, Fs), ( catch(run(Fs), E, ( print_message(error, E), writeln('Error'), halt(4) )) -> true ; writeln('Error'), halt(4) ), halt.
run([File]) :- get(logic, classical, L), ( L == intuitionistic -> D = cumulative ; get(domains, constant, D) ), assertz(setting(L, D)),
    get(limit, 200, Max), get(time, 1000000, TL), file_directory_name(File, Dir), get(root, Dir, Root),
    assertz(skolem(1)), nb_setval(cnt, c(0,0)), nb_setval(done, 0), statistics(cputime, T0),
    problem(File, Root, F, HC), m(F, f, [], [], M), assert_matrix(M), length(M, NC), statistics(cputime, T1),
    St1 is T1+TL, nb_setval(stop, St1), catch(deepen(1, Max, x, HC, R), time_limit_exceeded, ( nb_getval(done, Dn), R = limit('Timeout', Dn) )),
    statistics(cputime, T2), cnt(c(S,Tr)), R = limit(St, Li), T is T2-T1, Ld is T1-T0,
    format("~w limit=~w steps=~w kept=~w cpu=~3f load=~3f clauses=~w~n", [St, Li, S, Tr, T, Ld, NC]).
:- initialization(main, main).
