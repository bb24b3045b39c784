"""Names in the order of the alphabets of languages, by the tags of locales.

The order is that of ICU 72, with the tables of CLDR 42. Perl's Unicode::Collate::Locale 1.31 gives
the same but for `w` in Finnish, which it sorts as `v`, `y` in Latvian, and `ć` and `đ` in
Slovene."""

ALPHABETS = {
    'da-DK': ('Abel Madsen Szabo Søby Såby Saaby Vest Vind West Wied Yde Ünal Ypres Zola Äger Ægir '
              'Ærø Ørsted Øst Öst Aagaard Åkjær Ålborg Aalborg aalborg'),
    'nb-NO': ('Abel berg Berg Bull Bø Bårdsen Baardsen Vik Wik Yde Ünal Ypres Zakariassen Äger '
              'Ærlig Ødegård Ödegaard Åbø Aabø Åsen Aasen'),
    'nn-NO': ('Aukrust Duun Garborg Uppdal Vesaas Zetlitz Ærlig Ødegård Økland Åmot Åsen Aasen'),
    'sv-SE': ('Andersson Ek Ék Lagerlof Lagerlöf Stromberg Strömberg Strömgren Ünal Yngve Ypres '
              'Zorn Åberg Ålund Älv Ängström Ærø Öberg Øst Östlund'),
    'fi-FI': ('Aalto Hamari Hovi Hämäläinen Hölttä Virtanen Väänänen Waltari Yli Ünal Ypres '
              'Zilliacus Åström Äyräpää Öhman Øst'),
    'es-ES': ('Castano Castanza Castaño Cervantes Chacón Cuesta Llano Lugo Nunez Nuñez Núñez Nuño '
              'Nuza Nzé Ñandú Ocampo'),
    'cs-CZ': ('Cibulka Cyril Čapek Dvorák Dvorský Dvořák Havel Hora Hus Chalupa chmel Chrpa Chvojka '
              'CHYTIL Ibl Maher Mahler Mach Macha Rak Ryba Řezáč Stach Svoboda Šalda Zeman Zyka Žák'),
    'sk-SK': ('Ábel Adam Azor Äsop Benko Cyprian Čech Dzurinda Hviezdoslav Chalupka Ivan Obal Ozor '
              'Ôsmy Rúfus Svätopluk Šafárik Zúbek Zvon Žáry'),
    'pl-PL': ('Abacki Azor Ącki Cichy Cybis Ćwik Dobry Ezop Ęcki Lem Lwów Łęcki Łoś Nałkowska '
              'Norwid Nycz Ńko Orzeł Oz Ósmy Sienkiewicz Syk Szymborska Śliwa Zola Zych Źdźbło '
              'Żeromski'),
    'hu-HU': ('Aszód Asszony Asztalos Bessenyei Besser Besznyák Cuk Cukor Czuczor Csoma Dózsa Duka '
              'Dzurinda Dzsida Gulyás Guzmics Gyulai Hossó Hosszú Hoszú Lux Luz Lyka Mecs Mécs '
              'Meccs Mecset Nagy Nuszer Nyíri Ottó Ozora Öri Őri Örkény Suhajda Sülyi Szabó Tutsek '
              'Tyukos Ugron Uzonyi Űry Üveges Zola Zuboly Zsigmond'),
    'hr-HR': ('Cesarić Cvitan Čačić Čop Ćosić Domjan Držić Dvornik Džaja DŽAMBO Đalski Lovrak Lucić '
              'Lukić Lyra Ljubić Nazor Novak Nušić Njegoš Stančić Svevo Šenoa Zoranić Zvonimir '
              'Župan'),
    'tr-TR': ('Cansever Coşkun Cumalı Çamlıbel Gövsa Güntekin Gürpınar Ğ Halit Hüseyin Ilgaz Irmak '
              'Isparta Işık ız Iz Izgü İnan İsmet iz İzgü Oflazoğlu Ozan Özel Safa Suphi Şinasi '
              'Ufuk Uyar Ünaydın'),
    'et-EE': ('Saar Sool Sõber Säde Sütiste Šaman Zeno Ziegler Žukov Tammsaare Tuglas Under Vilde '
              'Wiera Õunapuu Ärma Öpik Üksküla Xerxes Yrjö'),
    'lv-LV': ('Cilinskis Cukurs Čaks Grīns Gulbis Ģērmanis Yeats Ievks Iltners Kalniņš Kurcijs '
              'Ķempe Lācis Lūsis Ļaudams Nīca Niedra Ņujorka Rainis Rutks Ŗutks Skalbe Svars Šķēle '
              'Zālīte Zvirgzds Žīgure'),
    'lt-LT': ('Azubalis Ažubalis Ąžuolas Ciurlys Cvirka Čiurlionis Emis Ęmis Ėmis Yčas Įda Idas '
              'Iešmantas Ylas Ivas Maceris Macernis Mačernis Salys Svaras Šatrija Ųda Udra Ūdras '
              'Zavis Zuikis Žemaitė'),
    'de-DE': ('Adler Ähre Ahrens Apfel Äpfel Mueller Muller Müller Mullern Oser Öser Ozean Straße '
              'Strassen Uhl Ühl Zorn'),
    'is-IS': ('Adam Azor Ásta Davíð Dýri Ðan Edda Ezra Élan Illugi Ísak Ormur Ozor Óðinn Unnur Uxi '
              'Úlfur Yrsa Ýmir Zoëga Þór Ægir Ögmundur Åse'),
    'ro-RO': ('Alecsandri Azor Ăla Âbel Ibrăileanu Izvor Îna Slavici Sturza Şerban Ștefan Tudor '
              'Tzara Ţara Țepeș'),
    'sl-SI': ('Cankar Cvetko Čop Ćosić Dular Dvor Đukić Slomšek Svit Šalamun Zupan Zven Župančič'),
    'az-AZ': ('Cabbar Cəfər Çərkəz Emin Ezop Əliyev Ganca Gülüm Ğ Həsən Hüseyn Xətai Irəvan İlyas '
              'Kərim Kürd Qasım Lala Oqtay Özər Sabir Süleyman Şirvani Uzun Ülvi Zeynal Wagner'),
}
