-- Which documents that are issued now hold a listed capability, in which of their sets, and how many teams issue one that holds it: by
-- capability, so that what two teams issue stands together.
with holding as (
    select bit, capability, team, profile, number, group_concat(held_in, ' ') as sets
    from (
        select k.number as bit, k.name as capability, r.team, r.profile, r.number, s.key as held_in
        from office o, revisions r, json_each(r.body, '$.capabilities') s, json_each(s.value) c
            join capabilities k on k.name = c.value
        where r.state = 2 and o.listed >> k.number & 1
        order by s.key
    )
    group by bit, team, profile
)
select capability,
       (select count(distinct team) from holding other where other.bit = holding.bit) as teams,
       team, profile, number, sets,
       iif(exists (select 1 from holds h where (h.team, h.profile) = (holding.team, holding.profile)), 'yes', 'no') as held
from holding
order by bit, team, profile;
