# One region, each of whose endpoints is asked: clients of three kinds, consents, codes with and
# without a challenge, rotations, a reuse of a refresh token and of a code, revocations of each
# kind, a list, a retirement, a withdrawal, a sign-out, a refresh token that is kept by a client with
# lives, changes of its secret, and what is refused.
asker c1-2:s3cret

open 1
client 1 1000 confidential s3cret read%20write https://app.example/cb
client 1 1000 resource s3cret read https://rs.example/cb
client 1 1000 public - read https://pub.example/cb
req 1 1000 POST /admin/consent - - client_id=c1-1&subject=ann&scope=read%20write
req 1 1000 POST /admin/consent - - client_id=c1-3&subject=bob&scope=read => bob
req 1 1001 GET /authorize?response_type=code&client_id=c1-1&state=s - ann - => spare
req 1 1002 POST /token <c1-1:s3cret> - grant_type=authorization_code&code={spare} => access0 refresh0
req 1 1003 GET /authorize?response_type=code&client_id=c1-1&redirect_uri=https%3A%2F%2Fapp.example%2Fcb&scope=read%20write&state=xyz - ann - => code1
req 1 1003 GET /authorize?response_type=code&client_id=c1-3&code_challenge=E9Melhoa2OwvFrEMTJguCHaoeK1t8URWbuGJSstw-cM&code_challenge_method=S256 - bob - => code2
req 1 1004 POST /token <c1-1:s3cret> - grant_type=authorization_code&code={code1}&redirect_uri=https%3A%2F%2Fapp.example%2Fcb => access1 refresh1
req 1 1004 POST /token - - grant_type=authorization_code&client_id=c1-3&code={code2}&code_verifier=dBjftJeZ4CVP-mB92K27uhbUJU1p1r_wW1gFWFOEjXk => access2 refresh2
req 1 1005 POST /introspect <c1-2:s3cret> - token={access2}
req 1 1006 POST /token <c1-1:s3cret> - grant_type=refresh_token&refresh_token={refresh1}&scope=read => access3 refresh3
req 1 1007 POST /revoke <c1-1:s3cret> - token={access3}
req 1 1008 POST /token - - grant_type=refresh_token&client_id=c1-1&client_secret=s3cret&refresh_token={refresh3} => access4 refresh4
req 1 1009 POST /token <c1-1:s3cret> - grant_type=refresh_token&refresh_token={refresh3}
req 1 1009 POST /token <c1-1:s3cret> - grant_type=refresh_token&refresh_token={refresh4}
req 1 1010 POST /revoke - - client_id=c1-3&token={refresh2}
req 1 1011 POST /token - - grant_type=authorization_code&client_id=c1-3&code={code2}&code_verifier=dBjftJeZ4CVP-mB92K27uhbUJU1p1r_wW1gFWFOEjXk
req 1 1012 GET /authorize?response_type=code&client_id=c1-1 - ann - => code5
req 1 1013 POST /token <c1-1:s3cret> - grant_type=authorization_code&code={code5} => access5 refresh5
req 1 1014 POST /token <c1-1:s3cret> - grant_type=authorization_code&code={code5}
look 1 1015 c1-3
req 1 1015 GET /admin/clients?after=c1-1 - - -
retire 1 1016 c1-3
req 1 1017 POST /admin/withdraw - - consent_id={bob}
req 1 1017 GET /authorize?response_type=code&client_id=c1-1&state=t - ann - => code6
req 1 1017 POST /token <c1-1:s3cret> - grant_type=authorization_code&code={code6} => access6 refresh6
req 1 1018 POST /revoke <c1-1:s3cret> - token={refresh6}
req 1 1018 GET /authorize?response_type=code&client_id=c1-1&state=u - ann - => code7
signout 1 1019 ann
req 1 1020 POST /token <c1-1:s3cret> - grant_type=authorization_code&code={code7}
req 1 1021 GET /authorize?response_type=code&client_id=c1-1&state=v - ann - => code8
req 1 1022 POST /token <c1-1:s3cret> - grant_type=authorization_code&code={code8} => access8 refresh8
req 1 1023 POST /revoke <c1-1:s3cret> - token=AQIAAgAAAAAAAAABAAAAAAAAADAAAAAAAAAAMQAAAAAAAAAy
req 1 1024 POST /admin/client - - kind=confidential&refresh=kept&access_life=600&refresh_life=7200&family_life=604800&secret=s3cret&scope=read&redirects=https%3A%2F%2Fkept.example%2Fcb => kept
look 1 1024 {kept}
req 1 1024 POST /admin/consent - - client_id={kept}&subject=eve&scope=read
req 1 1024 GET /authorize?response_type=code&client_id={kept}&state=w - eve - => code11
req 1 1024 POST /token - - grant_type=authorization_code&client_id={kept}&client_secret=s3cret&code={code11} => access11 refresh11
req 1 1024 POST /token - - grant_type=refresh_token&client_id={kept}&client_secret=s3cret&refresh_token={refresh11} => access12
req 1 1024 POST /admin/secret - - client_id={kept}&secret=n3w
req 1 1024 POST /token - - grant_type=refresh_token&client_id={kept}&client_secret=n3w&refresh_token={refresh11} => access13
req 1 1024 POST /admin/secret - - client_id={kept}&secret=n3w&old=ended
req 1 1024 POST /token - - grant_type=refresh_token&client_id={kept}&client_secret=s3cret&refresh_token={refresh11}
req 1 1024 GET /nowhere - - -
pull 1 - -

other
req 1 1025 POST /token <c1-1:s3cret> - grant_type=refresh_token&refresh_token={refresh0} => access9 refresh9

other
req 1 1025 GET /authorize?response_type=code&client_id=c1-1&scope=read - ann - => code10
req 1 1025 POST /token <c1-1:s3cret> - grant_type=authorization_code&code={code10} => access10 refresh10
