-- Who has which role. A user without any stands there with '-'.
select name as user,
       team,
       coalesce(nullif(trim(
           iif(roles & 1, 'registrar ', '') || iif(roles & 2, 'author ', '') || iif(roles & 4, 'reviewer ', '')
           || iif(roles & 8, 'security ', '') || iif(roles & 16, 'issuer ', '') || iif(roles & 32, 'machine', '')), ''), '-') as roles
from users
order by name;
