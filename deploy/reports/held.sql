-- What is held: nothing of it is issued or fetched. 'issued' is the number of the revision that hosts would get otherwise, 'open' that of
-- the one that waits; '-' where there is none.
select h.team, h.profile,
       coalesce((select number from revisions r where (r.team, r.profile) = (h.team, h.profile) and r.state = 2), '-') as issued,
       coalesce((select number from revisions r where (r.team, r.profile) = (h.team, h.profile) and r.state = 0), '-') as open
from holds h
order by h.team, h.profile;
