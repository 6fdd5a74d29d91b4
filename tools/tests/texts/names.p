% Names that have no form of their own in Coq or in a page, and would like to be more than names.
fof(c,conjecture,
    ( 'a b'('x y','x-y',x_y) & 'a-b' & '*) Axiom bad : False. (*' & o & equal(x_y) & $true & f(f) & f(f(f),'"')
    & '</pre><script>document.title=1</script>' & '<img src=x onerror=document.title=2>'(x) )
 => ( 'a-b' & 'a b'('x y','x-y',x_y) & '*) Axiom bad : False. (*' & o & f(f(f),'"') & f(f)
    & '</pre><script>document.title=1</script>' & '<img src=x onerror=document.title=2>'(x) )).
