-- What waits for whom: each open revision with its standing votes. A vote counts only while its voter is a reviewer, and with security
-- only where that was held at the vote and is held now. 'listed' says whether the document holds a listed capability, so that it needs two
-- approvals with one of security; whether it is wider than its baseline, and needs them for that, the sheet says. 'may vote' has the
-- reviewers who haven't a vote that counts, and 'may issue' the issuers; neither has authors of the profile.
with counted as (
    select v.team, v.profile, v.number, v.voter, v.approve,
           coalesce(u.roles & 4, 0) > 0 as counts,
           v.security and coalesce(u.roles & 12, 0) = 12 as security
    from votes v left join users u on u.name = v.voter
),
authors as (select distinct team, profile, author from revisions)
select r.team, r.profile, r.number, r.author,
       (select count(*) from counted c where (c.team, c.profile, c.number) = (r.team, r.profile, r.number)
           and c.counts and c.approve) as approvals,
       (select count(*) from counted c where (c.team, c.profile, c.number) = (r.team, r.profile, r.number)
           and c.counts and c.approve and c.security) as "with security",
       (select count(*) from counted c where (c.team, c.profile, c.number) = (r.team, r.profile, r.number)
           and c.counts and not c.approve) as rejections,
       (select count(*) from counted c where (c.team, c.profile, c.number) = (r.team, r.profile, r.number)
           and not c.counts) as lapsed,
       iif(exists (
           select 1
           from office o, json_each(r.body, '$.capabilities') s, json_each(s.value) c
               join capabilities k on k.name = c.value
           where o.listed >> k.number & 1), 'yes', 'no') as listed,
       iif(exists (select 1 from holds h where (h.team, h.profile) = (r.team, r.profile)), 'yes', 'no') as held,
       coalesce((
           select group_concat(name, ' ') from (
               select u.name from users u
               where u.roles & 4
                   and not exists (select 1 from authors a where (a.team, a.profile, a.author) = (r.team, r.profile, u.name))
                   and not exists (select 1 from votes v
                       where (v.team, v.profile, v.number, v.voter) = (r.team, r.profile, r.number, u.name))
               order by u.name)), '-') as "may vote",
       coalesce((
           select group_concat(name, ' ') from (
               select u.name from users u
               where u.roles & 16
                   and not exists (select 1 from authors a where (a.team, a.profile, a.author) = (r.team, r.profile, u.name))
               order by u.name)), '-') as "may issue"
from revisions r
where r.state = 0
order by r.team, r.profile;
