# Two regions that are cut off from each other and meet: a code that both redeem, a refresh token that
# both rotate, a revocation before its token is known, and bundles that come late, early and twice.
asker c1-2:s3cret

open 1
open 2
follow 1 - - all
client 1 1000 confidential s3cret read%20write https://app.example/cb
client 1 1000 resource s3cret read https://rs.example/cb
req 1 1000 POST /admin/consent - - client_id=c1-1&subject=ann&scope=read%20write
req 1 1001 GET /authorize?response_type=code&client_id=c1-1&state=s - ann - => spare
req 1 1002 POST /token <c1-1:s3cret> - grant_type=authorization_code&code={spare} => access0 refresh0
req 1 1003 GET /authorize?response_type=code&client_id=c1-1 - ann - => code1
follow
deliver {all} 2
follow 1 - 1:6 late
req 1 1004 POST /token <c1-1:s3cret> - grant_type=authorization_code&code={code1} => access1 refresh1
req 1 1005 POST /token <c1-1:s3cret> - grant_type=refresh_token&refresh_token={refresh1} => access2 refresh2
req 1 1006 POST /token <c1-1:s3cret> - grant_type=refresh_token&refresh_token={refresh2} => access3 refresh3
follow
follow 1 - 1:9 later
req 1 1007 POST /token <c1-1:s3cret> - grant_type=refresh_token&refresh_token={refresh3} => access4 refresh4
req 1 1008 POST /revoke <c1-1:s3cret> - token={access3}
req 1 1009 POST /admin/consent - - client_id=c1-1&subject=bob&scope=read
req 1 1010 GET /authorize?response_type=code&client_id=c1-1&scope=read - bob - => code5
req 1 1011 POST /token <c1-1:s3cret> - grant_type=authorization_code&code={code5} => access5 refresh5
signout 1 1012 bob
follow
follow 2 1:99 - back
req 2 1013 POST /revoke <c1-1:s3cret> - token={access2}
req 2 1014 POST /token <c1-1:s3cret> - grant_type=authorization_code&code={code1} => access6 refresh6
req 2 1015 POST /token <c1-1:s3cret> - grant_type=refresh_token&refresh_token={refresh0} => access7 refresh7
req 2 1016 POST /admin/consent - - client_id=c1-1&subject=eve&scope=read
req 2 1017 GET /authorize?response_type=code&client_id=c1-1&scope=read - eve - => code8
req 2 1018 POST /token <c1-1:s3cret> - grant_type=authorization_code&code={code8} => access8 refresh8
follow
deliver {later} 2
deliver {late} 2
deliver {later} 2
deliver {back} 1
req 1 1019 POST /token <c1-1:s3cret> - grant_type=refresh_token&refresh_token={refresh0}
deliver {all} 2

other
req 1 1030 POST /token <c1-1:s3cret> - grant_type=refresh_token&refresh_token={refresh0} => access9 refresh9
req 2 1030 POST /token <c1-1:s3cret> - grant_type=refresh_token&refresh_token={refresh0} => access10 refresh10
