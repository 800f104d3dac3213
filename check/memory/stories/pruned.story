# Regions that prune. Region 1 has a family that ends at 1100, with a reuse, and one that ends at 1150.
# Memory runs out in prunes, in deliveries of marks and a fact, to a region that holds the facts and
# to one that has nothing, and in deliveries of facts at skipped dots. A delivery raises the horizon
# before it takes an item, and no bundle does that alone; so who has nothing has that horizon before.
asker c1-2:s3cret
options --family 100
watch 1 2 3

open 1
open 2
open 3
client 1 1000 confidential s3cret read%20write https://app.example/cb
pull 1 - - => client
client 1 1000 resource s3cret read https://rs.example/cb
pull 1 - - => clients
req 1 1000 POST /admin/consent - - client_id=c1-1&subject=ann&scope=read
req 1 1000 GET /authorize?response_type=code&client_id=c1-1&scope=read - ann - => code1
pull 1 - - => facts1
req 1 1010 POST /token <c1-1:s3cret> - grant_type=authorization_code&code={code1} => access1 refresh1
pull 1 - - => facts2
req 1 1020 POST /token <c1-1:s3cret> - grant_type=refresh_token&refresh_token={refresh1} => access2 refresh2
pull 1 - - => facts3
req 1 1030 POST /token <c1-1:s3cret> - grant_type=refresh_token&refresh_token={refresh1}
pull 1 - - => facts4
deliver {facts4} 2
req 1 1050 GET /authorize?response_type=code&client_id=c1-1&scope=read - ann - => code2
pull 1 - - => facts5

# The fronts of the marks: regions that got only the first facts of the family, and pruned.
open 11
open 12
open 13
open 14
deliver {facts1} 11
deliver {facts2} 12
deliver {facts3} 13
deliver {facts4} 14
prune 11 1100
prune 12 1100
prune 13 1100
prune 14 1100
pull 11 - 1:3 => marks1
pull 12 - 1:3 => marks2
pull 13 - 1:3 => marks3
pull 14 - 1:3 => marks4

! prune 1 1100
pull 1 - 1:3 => marks5
pull 1 - - => all
fronts marks5 marks1 marks2 marks3 marks4
! deliver {marks5} 2
prune 3 1100
! deliver {marks5} 3
fronts facts5 client clients facts1
! deliver {facts5} 3
! deliver {facts5} 2
req 1 1105 POST /token <c1-1:s3cret> - grant_type=authorization_code&code={code2} => access3 refresh3
pull 1 - - => later
! deliver {later} 3
! prune 1 1150
