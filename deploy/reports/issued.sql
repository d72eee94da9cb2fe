-- Who approved what is issued now, and whether that approval would count today. The votes on an issued revision are those of its issue:
-- none is taken after it. 'lapsed' is an approval whose voter is no reviewer any more; 'without security' one that was given with
-- security by a voter who doesn't hold it now. The tables don't say when either came about: one that had lapsed by the issue stands here
-- as well. Nor do they say who issued.
select r.team, r.profile, r.number, r.author,
       coalesce(v.voter, '-') as "approved by",
       coalesce(iif(v.security, 'yes', 'no'), '-') as security,
       case
           when v.voter is null then '-'
           when coalesce(u.roles & 4, 0) = 0 then 'lapsed'
           when v.security and u.roles & 8 = 0 then 'without security'
           else 'counts'
       end as now,
       lower(hex(r.digest)) as digest
from revisions r
    left join votes v on (v.team, v.profile, v.number) = (r.team, r.profile, r.number) and v.approve
    left join users u on u.name = v.voter
where r.state = 2
order by r.team, r.profile, v.voter;
